//! The commands that change a file. A change is the same function as a command and as a line of a script.
use crate::arguments::{missing, Arguments, Form};
use crate::fault::{Done, Fault};
use crate::output::{print, say};
use crate::progress::Progress;
use crate::save::Writer;
use crate::stored::Stored;
use crate::vectors::{Reading, Row, Vectors};
use std::path::Path;
use vecq::{Error, Index};

// ---- making

pub fn new(arguments: &Arguments) -> Done<()> {
    let path = arguments.path("FILE")?;
    let index = made(arguments, path)?;
    Writer::new(path)?.create(&index).map(|_| ())
}

fn made(arguments: &Arguments, path: &Path) -> Done<Index> {
    arguments.not_both("--working", "--residual")?;
    arguments.not_both("--bits", "--residual")?;
    let dim = arguments.count("--dim")?.ok_or_else(|| missing("--dim"))?;
    let seed = arguments.number("--seed")?.unwrap_or(1);
    let bits = arguments.number("--bits")?;
    let made = match arguments.count("--working")? {
        Some(working_dim) => Index::with_working_dim(dim, working_dim, seed),
        None if arguments.has("--residual") => Index::with_residual(dim, seed),
        None => Index::new(dim, seed),
    };
    let mut index = made.map_err(Fault::on(path.display()))?;
    if let Some(bits) = bits {
        // What is past a byte is no width either: the library says so.
        index.set_bits(u8::try_from(bits).unwrap_or(u8::MAX)).map_err(Fault::on(path.display()))?;
    }
    Ok(index)
}

// ---- a change

pub enum Change {
    Add { vectors: Vectors, adding: Adding },
    Relabel { old: u64, new: u64 },
    Remove { key: u64, slot: Option<usize>, present: u16 },
}

/// How rows are added.
#[derive(Clone, Copy)]
pub struct Adding {
    /// The retention year that their slots get.
    year: u16,
    /// The present year, where the first slot of a key is overwritten; none where a key gets one more slot.
    overwriting: Option<u16>,
}

/// How a change is asked for. The first word of its form is the file; a script names it once for all lines.
pub struct Kind {
    pub name: &'static str,
    pub form: Form,
    pub read: fn(&Arguments) -> Done<Change>,
}

pub const ADD: Kind = Kind {
    name: "add",
    form: Form { words: &["FILE", "VECTORS"], more: false, flags: &["--keyed", "--multi", "--header"], values: &["--year", "--present"] },
    read: |arguments| {
        arguments.not_both("--keyed", "--multi")?;
        let adding = Adding { year: year(arguments)?, overwriting: overwriting(arguments)? };
        let reading = Reading { keyed: arguments.has("--keyed") || arguments.has("--multi"), header: arguments.has("--header") };
        Ok(Change::Add { vectors: Vectors::read(arguments.path("VECTORS")?, reading)?, adding })
    },
};

pub const RELABEL: Kind = Kind {
    name: "relabel",
    form: Form { words: &["FILE", "OLD", "NEW"], more: false, flags: &[], values: &[] },
    read: |arguments| Ok(Change::Relabel { old: arguments.key("OLD")?, new: arguments.key("NEW")? }),
};

pub const REMOVE: Kind = Kind {
    name: "remove",
    form: Form { words: &["FILE", "KEY"], more: false, flags: &[], values: &["--slot", "--present"] },
    read: |arguments| Ok(Change::Remove { key: arguments.key("KEY")?, slot: arguments.count("--slot")?, present: present(arguments)? }),
};

/// The year that vectors are added with. No year would do for all: a wrong 0 can't be taken back, a wrong 1 keeps nothing.
fn year(arguments: &Arguments) -> Done<u16> {
    arguments.year("--year")?.ok_or_else(|| {
        Fault::Usage(String::from(
            "--year is missing: the first year in which the slots may go, 1 if they may go at once, 0 if never. \
             It has no default: 0 can never be taken back, and 1 keeps nothing",
        ))
    })
}

/// The present year. A clock's would be another one on another machine, or on another day.
fn present(arguments: &Arguments) -> Done<u16> {
    arguments.year("--present")?.ok_or_else(|| {
        Fault::Usage(String::from("--present is missing: the present year, by which a slot may go or is to be kept. It has no default: no clock is asked"))
    })
}

fn overwriting(arguments: &Arguments) -> Done<Option<u16>> {
    if arguments.has("--keyed") {
        return present(arguments).map(Some);
    }
    if arguments.has("--present") {
        return Err(Fault::Usage(String::from("--present is for --keyed: without it no slot is overwritten")));
    }
    Ok(None)
}

/// What a change did.
#[derive(Default)]
pub struct Outcome {
    /// Rows added, slots removed, or lines of a script.
    pub count: usize,
    /// Whether a live slot has another number now.
    pub renumbered: bool,
}

impl Change {
    /// Makes the change, or all of it is left undone once the fault ends the command: nothing is saved then. `file` is for messages.
    pub fn make(&self, index: &mut Index, file: &Path) -> Done<Outcome> {
        match self {
            Change::Add { vectors, adding } => add(index, vectors, *adding),
            Change::Relabel { old, new } => relabel(index, *old, *new, file),
            Change::Remove { key, slot, present } => remove(index, *key, *slot, *present, file),
        }
    }
}

fn add(index: &mut Index, vectors: &Vectors, adding: Adding) -> Done<Outcome> {
    let count = vectors.count();
    let mut progress = Progress::new("vectors added", Some(count));
    index.reserve(index.slots().saturating_add(count)).map_err(Fault::on(format_args!("{count} vectors")))?;
    for (row, number) in vectors.rows().zip(1..) {
        add_row(index, &row, adding).map_err(Fault::on(&row.place))?;
        progress.reached(number);
    }
    Ok(Outcome { count, renumbered: false })
}

fn add_row(index: &mut Index, row: &Row<'_>, Adding { year, overwriting }: Adding) -> Result<u32, Error> {
    match (row.key, overwriting) {
        (Some(key), Some(present)) => index.add_keyed(key, row.entries, year, present),
        (Some(key), None) => index.add_keyed_multi(key, row.entries, year),
        (None, _) => index.add(row.entries, year),
    }
}

fn relabel(index: &mut Index, old: u64, new: u64, file: &Path) -> Done<Outcome> {
    let on_file = Fault::on(file.display());
    if index.relabel(old, new).map_err(&on_file)? {
        return Ok(Outcome::default());
    }
    let why = if index.contains_key(old).map_err(&on_file)? { format!("key {new} has slots already") } else { format!("no slot has key {old}") };
    Err(Fault::No(format!("{why}: {}", file.display())))
}

/// Removes slots and numbers the rest anew at once: held order isn't stored, so a script that went on without would leave other bytes than its lines as
/// commands, each of which reads a file.
fn remove(index: &mut Index, key: u64, slot: Option<usize>, present: u16, file: &Path) -> Done<Outcome> {
    let on_file = Fault::on(file.display());
    let (slots, live) = (index.slots(), index.live());
    let first = match slot {
        Some(slot) => Some(slot),
        None => index.slot_at(key, 0).map_err(&on_file)?.map(|slot| slot as usize),
    };
    let removed = match slot {
        Some(slot) => index.remove_keyed_at(key, slot, present),
        None => index.remove_keyed(key, present),
    };
    if !removed.map_err(&on_file)? {
        let why = slot.map_or(format!("no slot has key {key}"), |slot| format!("slot {slot} is not key {key}'s"));
        return Err(Fault::No(format!("{why}: {}", file.display())));
    }
    let count = live.saturating_sub(index.live());
    index.compact().map_err(&on_file)?;
    // No slot was dead before, and held order rises in an index that was read or compacted: the removed ones are the last ones, or some live one moved.
    Ok(Outcome { count, renumbered: first.is_some_and(|first| first + count < slots) })
}

// ---- a change as a command

pub fn add_command(arguments: &Arguments) -> Done<()> {
    changed(&ADD, arguments, "added")
}

pub fn remove_command(arguments: &Arguments) -> Done<()> {
    changed(&REMOVE, arguments, "removed")
}

pub fn relabel_command(arguments: &Arguments) -> Done<()> {
    changed(&RELABEL, arguments, "")
}

/// Makes a change to the file, and then says how many rows or slots it was, by `counted` if that is told.
fn changed(kind: &Kind, arguments: &Arguments, counted: &str) -> Done<()> {
    // Vectors may come slowly through a pipe, so they are read before other writers are locked out.
    let change = (kind.read)(arguments)?;
    let path = arguments.path("FILE")?;
    let (outcome, live, bytes) = rewritten(path, |index| change.make(index, path))?;
    tell(path, &outcome);
    if counted.is_empty() {
        return Ok(());
    }
    print(&format!("{counted}\t{}\nlive\t{live}\nbytes\t{bytes}\n", outcome.count))
}

/// Reads the file, lets it be changed and puts the new one into its place, under the lock. What the change did, the live slots and the bytes.
pub fn rewritten(path: &Path, change: impl FnOnce(&mut Index) -> Done<Outcome>) -> Done<(Outcome, usize, usize)> {
    let writer = Writer::new(path)?;
    let mut index = Stored::read(path)?.index;
    let outcome = change(&mut index)?;
    let bytes = writer.replace(&index)?;
    Ok((outcome, index.live(), bytes))
}

pub fn tell(path: &Path, outcome: &Outcome) {
    if outcome.renumbered {
        say(format_args!("slots were renumbered: {}", path.display()));
    }
}
