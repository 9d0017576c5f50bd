//! The commands that take queries: score, find, file. They change nothing and take no lock.
use crate::arguments::{missing, Arguments};
use crate::fault::{Done, Fault};
use crate::lists::{Asked, By, Format, List, Ranked, Source};
use crate::output::{print, Output};
use crate::progress::Progress;
use crate::sha256;
use crate::stored::Stored;
use crate::vectors::{Reading, Row, Vectors};
use std::fmt::Write;
use std::fs;
use std::io;
use std::os::unix::fs::MetadataExt;
use std::path::Path;
use std::thread::{self, ScopedJoinHandle};
use vecq::{Error, Hit, Index, KeyHit};

fn queries(arguments: &Arguments) -> Done<Vectors> {
    Vectors::read(arguments.path("QUERIES")?, Reading { keyed: arguments.has("--keyed"), header: arguments.has("--header") })
}

pub fn score(arguments: &Arguments) -> Done<()> {
    let slot = arguments.count("--slot")?.ok_or_else(|| missing("--slot"))?;
    let index = Stored::read(arguments.path("FILE")?)?.index;
    let mut text = String::new();
    for (row, query) in queries(arguments)?.rows().zip(1..) {
        let score = index.score(slot, row.entries).map_err(Fault::on(row.place))?;
        // Writing to a string can't fail.
        let _ = writeln!(text, "{query}\t{:08X}\t{score}", score.to_bits());
    }
    print(&text)
}

pub fn find(arguments: &Arguments) -> Done<()> {
    let by = arguments.choice("--by", [("slot", By::Slot), ("key", By::Key)])?;
    let format = arguments.choice("--format", [("tsv", Format::Tsv), ("json", Format::Json)])?;
    let asked = Asked { k: arguments.count("-k")?.unwrap_or(10), by, cascade: arguments.count("--cascade")? };
    if asked.by == By::Key && asked.cascade.is_some() {
        return Err(Fault::Usage(String::from("--cascade lists slots, so --by key excludes it")));
    }
    find_lists(arguments, asked, format)
}

/// The list that two houses compare has one form.
pub fn file(arguments: &Arguments) -> Done<()> {
    let k = arguments.count("-k")?.ok_or_else(|| missing("-k"))?;
    arguments.value("-o").ok_or_else(|| missing("-o"))?;
    find_lists(arguments, Asked { k, by: By::Slot, cascade: None }, Format::Tsv)
}

fn find_lists(arguments: &Arguments, asked: Asked, format: Format) -> Done<()> {
    let path = arguments.path("FILE")?;
    let list_path = arguments.value("-o").map(Path::new);
    if let Some(list_path) = list_path {
        keep_inputs(list_path, &[path, arguments.path("QUERIES")?])?;
    }
    let queries = queries(arguments)?;
    let mut stored = Stored::read(path)?;
    if asked.cascade.is_some() {
        stored.index.enable_cascade().map_err(Fault::on(path.display()))?;
    }
    let mut output = Output::to(list_path)?;
    output.write(&format.start(&Source::of(&stored)))?;
    let keys = stored.index.keys().collect();
    write_lists(&Lists { index: &stored.index, keys, queries: &queries, keyed: arguments.has("--keyed"), asked, format }, &mut output)?;
    output.write(format.end())?;
    output.end()
}

/// A list in the place of what it is made from would be a slip.
fn keep_inputs(list: &Path, inputs: &[&Path]) -> Done<()> {
    let same = |input: &&Path| match (fs::metadata(list), fs::metadata(input)) {
        (Ok(one), Ok(other)) => one.dev() == other.dev() && one.ino() == other.ino(),
        _ => false,
    };
    match inputs.iter().copied().find(same) {
        Some(input) => Err(Fault::Usage(format!("-o: the list would take the place of {}", input.display()))),
        None => Ok(()),
    }
}

// ---- searches

/// Searches that a thread makes in a round: enough of them that its start doesn't count.
const SEARCHES: usize = 16;

/// A thread's stack: a search takes up to 1.5 MB of it, whatever the environment says that threads have.
const STACK: usize = 4 << 20;

/// Rounds of queries, each shared by as many threads as there are processors, and written in the order of the queries.
fn write_lists(lists: &Lists<'_>, output: &mut Output) -> Done<()> {
    let threads = thread::available_parallelism().map_or(1, usize::from);
    let mut progress = Progress::new("queries", Some(lists.queries.count()));
    let mut rows = lists.queries.rows().zip(1..);
    loop {
        let round: Vec<(Row<'_>, usize)> = rows.by_ref().take(threads * SEARCHES).collect();
        let Some((_, last)) = round.last() else { return Ok(()) };
        lists.of_round(&round, threads).into_iter().try_for_each(|text| output.write(&text?))?;
        progress.reached(*last);
    }
}

/// What all lists of a command share.
struct Lists<'a> {
    index: &'a Index,
    /// The key of each slot.
    keys: Vec<Option<u64>>,
    queries: &'a Vectors,
    /// Whether queries have keys.
    keyed: bool,
    asked: Asked,
    format: Format,
}

impl Lists<'_> {
    fn of_round(&self, round: &[(Row<'_>, usize)], threads: usize) -> Vec<Done<String>> {
        thread::scope(|scope| {
            let start = |rows| (rows, thread::Builder::new().stack_size(STACK).spawn_scoped(scope, move || self.of_part(rows)));
            let parts: Vec<_> = round.chunks(round.len().div_ceil(threads).max(1)).map(start).collect();
            // A part whose thread the system didn't give is made here.
            parts.into_iter().flat_map(|(rows, thread)| thread.map_or_else(|_| self.of_part(rows), joined)).collect()
        })
    }

    fn of_part(&self, rows: &[(Row<'_>, usize)]) -> Vec<Done<String>> {
        rows.iter().map(|(row, query)| self.of_query(row, *query)).collect()
    }

    fn of_query(&self, row: &Row<'_>, query: usize) -> Done<String> {
        let hits = self.hits(row.entries).map_err(Fault::on(&row.place))?;
        let list = List { query, key: self.keyed.then_some(row.key), sha256: sha256::of_entries(row.entries), asked: self.asked, hits };
        Ok(self.format.list(&list))
    }

    fn hits(&self, query: &[f32]) -> Result<Vec<Ranked>, Error> {
        let k = self.asked.k;
        match (self.asked.by, self.asked.cascade) {
            (By::Key, _) => Ok(self.index.search_keyed(query, k)?.iter().map(by_key_alone).collect()),
            (By::Slot, Some(candidates)) => Ok(self.with_keys(&self.index.search_cascade(query, k, candidates)?)),
            (By::Slot, None) => Ok(self.with_keys(&self.index.search(query, k)?)),
        }
    }

    fn with_keys(&self, hits: &[Hit]) -> Vec<Ranked> {
        let key = |slot: u32| self.keys.get(slot as usize).copied().flatten();
        hits.iter().map(|hit| Ranked { slot: Some(hit.slot), key: key(hit.slot), score: hit.score }).collect()
    }
}

fn by_key_alone(hit: &KeyHit) -> Ranked {
    Ranked { slot: None, key: Some(hit.key), score: hit.score }
}

fn joined(thread: ScopedJoinHandle<'_, Vec<Done<String>>>) -> Vec<Done<String>> {
    thread.join().unwrap_or_else(|_| vec![Err(Fault::System(String::from("a search"), io::Error::other("its thread ended early")))])
}
