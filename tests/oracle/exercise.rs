//! The fixed list of the program `exercise`. The Rust's answer stands where the line is inside the comparison, that of `one_trait.rs` where the Rust stops at a game
//! with one trait; the answers to all other lines are written here, from documents 01 and 02 and from the language.
use crate::driver::{Answer, Driver, Reason};
use crate::list::List;
use crate::model::{block_size, MARKS};
use crate::random::Random;
use crate::text::{bytes, vector};

mod retention;

#[derive(Default)]
struct Tally {
    rust: usize,
    one_trait: usize,
    language: usize,
    stated: usize,
}

struct Fixed {
    list: List,
    driver: Driver,
    tally: Tally,
}

impl Fixed {
    fn section(&mut self, title: &str) {
        self.list.section(title);
    }

    /// A comment line that says what comes.
    fn label(&mut self, text: &str) {
        self.list.ask(format!("# {text}"), String::new());
    }

    /// A line whose answer is the Rust's, that of the definition of games with one trait, or the language's `ok`.
    fn ask(&mut self, line: impl Into<String>) {
        let line = line.into();
        let answer = self.driver.answer(line.as_bytes());
        match &answer {
            Answer::Rust(_) => self.tally.rust += 1,
            Answer::Outside(Reason::OneTrait, _) => self.tally.one_trait += 1,
            Answer::Language(text) if text == "ok" => self.tally.language += 1,
            _ => panic!("{line}: its answer must be stated, the driver has {answer}"),
        }
        self.list.ask(line, answer.text().to_string());
    }

    fn asks(&mut self, lines: &[&str]) {
        lines.iter().for_each(|&line| self.ask(line));
    }

    /// A line outside the comparison, or without a call, with the answer that document 01, 02 or the language has. The driver's reading must be the same.
    fn told(&mut self, line: impl Into<String>, answer: &str) {
        let line = line.into();
        let theirs = self.driver.answer(line.as_bytes());
        assert!(!matches!(theirs, Answer::Rust(_)), "{line}: the Rust answers it");
        assert_eq!(theirs.text(), answer, "{line}: two readings");
        self.tally.stated += 1;
        self.list.ask(line, answer.to_string());
    }

    /// A line that may be inside the comparison or not, and its answer.
    fn either(&mut self, line: impl Into<String>) -> String {
        let line = line.into();
        let answer = self.driver.clone().answer(line.as_bytes());
        match answer {
            Answer::Rust(_) | Answer::Outside(Reason::OneTrait, _) => self.ask(line),
            _ => self.told(line, answer.text()),
        }
        answer.text().to_string()
    }

    /// The same where the answer is known by hand.
    fn stated(&mut self, line: impl Into<String>, answer: &str) {
        let line = line.into();
        assert_eq!(self.either(line.clone()), answer, "{line}: two readings");
    }

    fn told_all(&mut self, lines: &[&str], answer: &str) {
        lines.iter().for_each(|&line| self.told(line, answer));
    }

    /// Room for so many slots in every array.
    fn lend(&mut self, slots: usize, block: usize) {
        self.lend_words(slots, block, slots.div_ceil(MARKS));
    }

    /// The same, but for so many words of live marks.
    fn lend_words(&mut self, slots: usize, block: usize, words: usize) {
        let lengths = [slots * block, slots, slots, slots, slots, words, slots * block, slots, slots];
        self.ask(format!("lend {}", lengths.map(|n| format!("{n:x}")).join(" ")));
    }
}

pub fn list() -> List {
    let mut fixed = Fixed { list: List::default(), driver: Driver::new(), tally: Tally::default() };
    start(&mut fixed);
    examples(&mut fixed);
    sizes(&mut fixed);
    large(&mut fixed);
    keys(&mut fixed);
    room(&mut fixed);
    cascade(&mut fixed);
    spare_bits(&mut fixed);
    vectors(&mut fixed);
    scores(&mut fixed);
    searches(&mut fixed);
    ties(&mut fixed);
    keyed_searches(&mut fixed);
    zeros(&mut fixed);
    cascades(&mut fixed);
    search_refusals(&mut fixed);
    one_trait_codes(&mut fixed);
    one_trait_residual(&mut fixed);
    one_trait_zeros(&mut fixed);
    one_trait_scales(&mut fixed);
    one_trait_slots(&mut fixed);
    one_trait_files(&mut fixed);
    one_trait_refusals(&mut fixed);
    files(&mut fixed);
    readings(&mut fixed);
    cuts_and_damage(&mut fixed);
    reading_refusals(&mut fixed);
    version_one(&mut fixed);
    order(&mut fixed);
    making_misfits(&mut fixed);
    short_arrays(&mut fixed);
    misfits(&mut fixed);
    stray_marks(&mut fixed);
    cleared_marks(&mut fixed);
    room_by_words(&mut fixed);
    word_borders(&mut fixed);
    compacted_words(&mut fixed);
    marks_by_hand(&mut fixed);
    retention::sections(&mut fixed);
    no_misfits(&mut fixed);
    histories(&mut fixed);
    twins(&mut fixed);
    unreadable(&mut fixed);
    let Tally { rust, one_trait, language, stated } = fixed.tally;
    println!("{rust:6}  answers of the Rust, {one_trait} of the definition of games with one trait, {language} ok of the language, {stated} stated");
    fixed.list
}

fn v(entries: &[f32]) -> String {
    vector(entries)
}

/// A vector of the dimension, another one for each number.
fn nth(dim: usize, number: u64) -> String {
    let mut random = Random::new(1000 * dim as u64 + number);
    let entries: Vec<f32> = (0..dim).map(|_| random.below(19) as f32 - 9.0).collect();
    if entries.iter().all(|&x| x == 0.0) { v(&vec![1.0; dim]) } else { v(&entries) }
}

/// A call that adds: its vector, year 1, and the present year if it is told one.
fn adding(call: &str, vector: &str) -> String {
    format!("{call} {vector} 1{}", if call.starts_with("add_keyed") { " 7ea" } else { "" })
}

/// Five of the calls of an index that is there, others at each turn, so that each comes often. The first test is the same in all of them.
fn some_calls(turn: usize) -> Vec<String> {
    let w = nth(4, 0);
    let plain = ["bits 4", "relabel 7 9", "relabel 7 7", "remove 7 1", "remove_at 7 0 7ea", "key_of 0", "contains 7", "slot_at 7 0", "enable", "compact"];
    let mut lines: Vec<String> = plain.map(str::to_string).to_vec();
    lines.extend([format!("add {w} 1"), format!("add_keyed 7 {w} 1 ffff"), format!("add_keyed 5 {w} 1 0"), format!("add_multi 7 {w} 1")]);
    (0..5).map(|i| lines[(5 * turn + i) % lines.len()].clone()).collect()
}

// ---- the start, and document 01's examples

fn start(f: &mut Fixed) {
    f.section("the start: every array lent with length 0, the record that of new(1, 0)");
    f.asks(&["dump", "contains 0", "key_of 0", "slot_at 0 0", "remove 0 1", "remove_at 0 0 7ea", "relabel 0 1", "compact", "bits 4", "enable", "dump"]);
    f.label("no room: 8");
    f.told("add 3f800000 1", "refused 8");
    f.label("ours: an accepted width call ends the cascade");
    f.told("bits 5", "ok");
    f.ask("dump");
    f.label("a lent array holds no slot: 13");
    f.told_all(&["new 1 0", "working 2 1 0", "residual 1 0"], "refused 13");
}

fn examples(f: &mut Fixed) {
    f.section("document 01's examples of refusals");
    f.lend(2, 4);
    f.label("4: dim 4,097");
    f.told("new 1001 1", "refused 4");
    f.told("working 1001 1 1", "refused 4");
    f.told("residual 1001 1", "refused 4");
    f.ask("new 4 1");
    f.label("1: 3 entries, dim 4");
    for call in ["add", "add_keyed 7", "add_multi 7"] {
        f.told(adding(call, &v(&[1.0, 2.0, 3.0])), "refused 1");
    }
    f.label("2: 0,0,0,0");
    for call in ["add", "add_keyed 7", "add_multi 7"] {
        f.told(adding(call, &v(&[0.0; 4])), "refused 2");
    }
    f.label("5: width 7");
    f.told("bits 7", "refused 5");
    f.label("11: 5 bits");
    f.told("enable", "refused 11");
    f.label("6: width set with one slot in use");
    f.ask(format!("add {} 1", v(&[1.0, 2.0, 3.0, 4.0])));
    f.told("bits 4", "refused 6");
    f.label("8: capacity 2, third add");
    f.ask("lend 6 2 2 2 2 1 0 0 2");
    f.ask("new 4 1");
    f.ask(format!("add {} 1", v(&[1.0, 2.0, 3.0, 4.0])));
    f.ask(format!("add_keyed 7 {} 1 ffff", v(&[4.0, 3.0, 2.0, 1.0])));
    f.told(format!("add {} 1", v(&[1.0; 4])), "refused 8");
    f.ask("dump");
    f.label("3: 1e30, 0");
    f.ask("new 2 1");
    for call in ["add", "add_keyed 7", "add_multi 7"] {
        f.told(adding(call, &v(&[1.0e30, 0.0])), "refused 3");
    }
    f.label("7: residual, width 5");
    f.lend(2, 4);
    f.ask("residual 4 1");
    f.told("bits 5", "refused 7");
    f.told("bits 6", "refused 7");
    f.ask("bits 4");
    f.label("13: arrays lent anew under a live slot");
    f.ask("lend 2 1 1 1 1 1 2 1 1");
    f.ask("residual 4 1");
    f.ask(format!("add_keyed 7 {} 1 0", v(&[1.0, 2.0, 3.0, 4.0])));
    f.ask("lend 2 1 1 1 1 1 2 0 1");
    f.told("contains 7", "refused 13");
    f.label("its worked example: dim 1, seed 1, width 5, 3.0 added unkeyed");
    f.lend(1, 1);
    f.asks(&["new 1 1", "add 40400000 1", "dump"]);
}

// ---- sizes

/// A short history over three slots: append, overwrite, one more slot of a key, a removal, a compaction, an append into a place left behind.
fn short_history(f: &mut Fixed, dim: usize, making: &str, width: u8, residual: bool) {
    let w = |number| nth(dim, number);
    f.ask(making);
    f.ask(format!("bits {width:x}"));
    f.ask(format!("add_keyed 7 {} 1 1", w(1)));
    f.ask(format!("add {} 1", w(2)));
    f.ask(format!("add_multi 7 {} 1", w(3)));
    f.ask(format!("add_keyed 7 {} 1 7ea", w(4)));
    f.ask("dump");
    f.ask("remove_at 7 0 ffff");
    if residual {
        // Ours: codes2 and scales2 move with their slots.
        f.told("compact", "ok");
    } else {
        f.ask("compact");
    }
    f.ask(format!("add_keyed 8 {} 1 0", w(5)));
    f.ask("dump");
}

fn sizes(f: &mut Fixed) {
    f.section("dims 1 to 17, each width and the residual: append, overwrite, removal, compaction, append again");
    for dim in 1..=17 {
        for width in [4, 5, 6] {
            f.lend(3, block_size(dim, width.max(5)));
            short_history(f, dim, &format!("new {dim:x} {:x}", 11 * dim), width, false);
        }
        f.lend(3, block_size(dim, 4));
        short_history(f, dim, &format!("residual {dim:x} {:x}", 13 * dim), 4, true);
    }
    f.section("fewer working dimensions");
    for (dim, working, width) in [(2, 1, 4), (2, 1, 5), (3, 2, 6), (5, 4, 4), (9, 8, 5), (16, 5, 6), (17, 16, 4)] {
        f.lend(3, block_size(working, width.max(5)));
        short_history(f, dim, &format!("working {dim:x} {working:x} ffffffffffffffff"), width, false);
    }
}

fn large(f: &mut Fixed) {
    f.section("dims 33, 64, 100, 255 and 4,096");
    for dim in [33, 64, 100, 255, 4096] {
        let block = block_size(dim, 5);
        f.lend(1, block);
        for making in [format!("new {dim:x} 0"), format!("residual {dim:x} 1"), format!("working {dim:x} {:x} 2", dim / 2 + 1)] {
            f.ask(making);
            f.ask(format!("add_keyed ffffffffffffffff {} 1 1", nth(dim, 1)));
            f.ask("dump");
        }
    }
}

// ---- keys

fn keys(f: &mut Fixed) {
    f.section("keys: held order, overwriting, relabelling, removals, questions");
    let w: Vec<String> = (0..12).map(|number| nth(3, number)).collect();
    let questions = |f: &mut Fixed| {
        for key in ["7", "8", "0", "ffffffffffffffff"] {
            f.ask(format!("contains {key}"));
            for position in ["0", "1", "2", "3"] {
                f.ask(format!("slot_at {key} {position}"));
            }
        }
        for slot in ["0", "1", "2", "3", "4", "5", "6", "ffffffffffffffff"] {
            f.ask(format!("key_of {slot}"));
        }
        f.ask("dump");
    };
    f.lend(6, 3);
    f.ask("new 3 5");
    questions(f);
    for (number, key) in ["7", "7", "7", "8", "ffffffffffffffff"].iter().enumerate() {
        f.ask(format!("add_multi {key} {} 1", w[number]));
    }
    f.ask(format!("add {} 1", w[5]));
    questions(f);
    f.label("add_keyed on a key with several slots overwrites the first held");
    f.ask(format!("add_keyed 7 {} 1 7ea", w[6]));
    f.ask("dump");
    f.label("held 0, 1, 2 less 0 is 2, 1");
    f.ask("remove_at 7 0 ffff");
    questions(f);
    f.ask(format!("add_keyed 7 {} 1 0", w[7]));
    f.ask("dump");
    f.label("single removal: another key's slot, a dead slot, an unkeyed one, one past those in use");
    f.asks(&["remove_at 8 1 1", "remove_at 7 0 7ea", "remove_at 7 5 ffff", "remove_at 7 6 0", "remove_at 7 ffffffffffffffff 1", "remove_at 5 0 7ea"]);
    f.label("relabelling: an unknown key, onto a held one, onto itself, of several slots");
    f.asks(&["relabel 5 6", "relabel 5 5", "relabel 7 8", "relabel 8 7", "relabel 7 7", "relabel 7 0", "relabel 8 7"]);
    questions(f);
    f.label("compaction restores rising order");
    f.asks(&["compact", "dump", "slot_at 0 0", "slot_at 0 1", "compact", "dump"]);
    f.label("removal of all slots of a key");
    f.asks(&["remove 0 ffff", "remove 0 0", "remove 5 1"]);
    questions(f);
    f.asks(&["remove_at 7 2 7ea", "remove ffffffffffffffff ffff"]);
    questions(f);
    f.ask(format!("add_keyed 7 {} 1 0", w[8]));
    f.asks(&["compact", "dump", "remove 7 1", "compact", "dump"]);
    f.label("every slot dead, then none in use");
    f.lend(3, 3);
    f.ask("new 3 5");
    f.ask(format!("add_keyed 1 {} 1 7ea", w[9]));
    f.ask(format!("add_keyed 2 {} 1 ffff", w[10]));
    f.asks(&["remove 1 0", "remove 2 1", "dump", "contains 1", "compact", "dump", "bits 6"]);
    f.ask(format!("add_keyed 1 {} 1 7ea", w[11]));
    f.ask("dump");
}

fn room(f: &mut Fixed) {
    f.section("room: 8 and what is no 8, for each array that is the shortest");
    let (w, x) = (nth(2, 1), nth(2, 2));
    for short in [0, 1, 2, 3, 4, 6, 7, 8] {
        // Three slots, but for one array, which holds two; a word of live marks holds 64. At 4 bits a slot of dim 2 has one byte.
        let lengths: Vec<String> = (0..9).map(|i| if i == 5 { 1 } else if i == short { 2 } else { 3 }).map(|n| n.to_string()).collect();
        f.ask(format!("lend {}", lengths.join(" ")));
        f.ask("residual 2 3");
        f.ask(format!("add_multi 7 {w} 1"));
        f.ask(format!("add_multi 7 {x} 1"));
        for call in ["add", "add_keyed 8", "add_multi 7"] {
            f.told(adding(call, &w), "refused 8");
        }
        f.label("an overwrite needs no room");
        f.ask(format!("add_keyed 7 {w} 1 ffff"));
    }
    f.label("residual arrays count only if residual");
    f.asks(&["lend 2 2 2 2 2 1 0 0 2", "new 2 3", "bits 4"]);
    f.ask(format!("add_keyed 7 {w} 1 0"));
    f.ask(format!("add_keyed 8 {x} 1 1"));
    f.told(format!("add {w} 1"), "refused 8");
    f.label("places freed by removal serve again after compaction only");
    f.ask("remove 7 7ea");
    f.told(format!("add {w} 1"), "refused 8");
    f.ask("compact");
    f.ask(format!("add_keyed 9 {w} 1 ffff"));
    f.ask("dump");
    f.told(format!("add {w} 1"), "refused 8");
    f.label("a width for which there is no room: dim 2 in one byte has a slot at 4 bits and none at 5 or 6");
    f.asks(&["lend 2 1 1 1 1 1 0 0 1", "new 2 3", "lend 1 1 1 1 1 1 0 0 1"]);
    f.told(format!("add {w} 1"), "refused 8");
    f.ask("bits 6");
    f.told(format!("add {w} 1"), "refused 8");
    f.ask("bits 4");
    f.ask(format!("add {w} 1"));
    f.ask("dump");
}

// ---- the cascade

fn cascade(f: &mut Fixed) {
    f.section("the cascade: what ends it and what doesn't");
    let w: Vec<String> = (0..6).map(|number| nth(4, number)).collect();
    let zero = v(&[0.0; 4]);
    f.lend(3, 3);
    f.ask("new 4 9");
    f.told("enable", "refused 11");
    f.ask("bits 6");
    f.told("enable", "refused 11");
    f.asks(&["bits 4", "enable", "dump", "enable"]);
    f.label("a refused width call doesn't, an accepted one does (ours)");
    f.told("bits 3", "refused 5");
    f.ask("dump");
    f.told("bits 4", "ok");
    f.asks(&["dump", "enable"]);
    f.label("a refused add doesn't, an accepted one does, an overwrite too");
    f.told(format!("add {zero} 1"), "refused 2");
    f.told(format!("add {} 1", nth(3, 1)), "refused 1");
    f.ask("dump");
    for line in [format!("add_keyed 7 {} 1 0", w[1]), format!("add_keyed 7 {} 1 1", w[2]), format!("add_multi 7 {} 1", w[3]), format!("add {} 1", w[4])] {
        f.ask(line);
        f.ask("dump");
        f.ask("enable");
    }
    f.told(format!("add {} 1", w[5]), "refused 8");
    f.told(format!("add_keyed 7 {zero} 1 7ea"), "refused 2");
    f.told("bits 4", "refused 6");
    f.ask("dump");
    f.label("relabelling, removals and questions don't, nor a compaction that meets no dead slot");
    f.asks(&["relabel 7 8", "relabel 7 8", "contains 8", "slot_at 8 1", "key_of 0", "compact", "dump", "remove_at 8 0 ffff", "dump"]);
    f.label("a compaction that meets one does");
    f.asks(&["compact", "dump", "enable", "remove 8 0", "dump", "compact", "dump"]);
    f.label("residual");
    f.ask("residual 4 9");
    f.asks(&["enable", "dump"]);
    f.told("bits 4", "ok");
    f.asks(&["enable", "residual 4 9", "dump"]);
}

// ---- codes and vectors

fn spare_bits(f: &mut Fixed) {
    f.section("spare bits: an overwrite keeps them, an append clears them, a compaction moves bytes whole");
    for (dim, width) in [(1, 4), (1, 5), (1, 6), (2, 5), (2, 6), (3, 5), (4, 5), (2, 4)] {
        let block = block_size(dim, width);
        f.lend(3, block.max(block_size(dim, 5)));
        f.ask(format!("new {dim:x} 2"));
        f.ask(format!("bits {width:x}"));
        for byte in 0..3 * block {
            f.ask(format!("set codes {byte:x} ff"));
        }
        f.ask(format!("add_keyed 1 {} 1 1", nth(dim, 1)));
        f.ask(format!("add_keyed 2 {} 1 7ea", nth(dim, 2)));
        f.ask("dump");
        f.ask(format!("set codes {:x} ff", 2 * block - 1));
        f.ask(format!("add_keyed 2 {} 1 ffff", nth(dim, 3)));
        f.asks(&["dump", "remove 1 0", "compact", "dump"]);
        f.ask(format!("add {} 1", nth(dim, 4)));
        f.ask("dump");
    }
    f.label("the residual's too");
    f.lend(2, 1);
    f.ask("residual 1 2");
    f.asks(&["set codes 0 ff", "set codes2 0 ff", "set codes2 1 ff", "add_keyed 1 3f800000 1 1", "dump"]);
    f.asks(&["set codes2 0 ff", "add_keyed 1 bf800000 1 7ea", "dump"]);
    f.label("scales that are NaNs move with their signs and fractions");
    f.lend(3, 2);
    f.ask("residual 4 2");
    f.ask(format!("add_keyed 1 {} 1 ffff", nth(4, 1)));
    f.ask(format!("add_keyed 2 {} 1 0", nth(4, 2)));
    f.asks(&["set scales 1 ff800001", "set scales2 1 7fffffff", "remove 1 1"]);
    f.told("compact", "ok");
    f.ask("dump");
}

fn vectors(f: &mut Fixed) {
    f.section("vectors: what is refused, and neighbours that are not");
    let inf = f32::INFINITY;
    f.lend(24, 8);
    f.ask("working 4 2 3");
    f.label("past working_dim nothing counts");
    for past in [f32::NAN, inf, -inf, 1.0e30, 0.0, 2f32.powi(-75)] {
        f.ask(format!("add {} 1", v(&[1.0, 2.0, past, past])));
    }
    f.label("every pattern of a NaN stands for one");
    for nan in ["7fc00000", "ffc00000", "7f800001", "ffffffff"] {
        f.ask(format!("add 3f80000040000000{nan}{nan} 1"));
        f.told(format!("add {nan}3f80000000000000{nan} 1"), "refused 2");
    }
    f.label("2: the sum of squares is zero or a NaN");
    let small = 2f32.powi(-75);
    for v2 in [[0.0, 0.0], [-0.0, 0.0], [small, 0.0], [small, -small], [f32::from_bits(1), 0.0], [f32::NAN, 1.0], [f32::NAN, inf]] {
        f.told(format!("add {} 1", v(&[v2[0], v2[1], 1.0, 1.0])), "refused 2");
    }
    f.label("3: it is infinite");
    for v2 in [[1.0e30, 0.0], [inf, 0.0], [-inf, 1.0], [f32::MAX, 0.0], [1.5e19, 1.5e19], [0.0, 1.85e19]] {
        f.told(format!("add {} 1", v(&[v2[0], v2[1], 1.0, f32::NAN])), "refused 3");
    }
    f.label("neighbours");
    for v2 in [[2f32.powi(-74), 0.0], [1.8e19, 0.0], [1.2e19, 1.2e19], [f32::from_bits(0x1a35_04f4), 0.0], [1.0, small], [-1.0, 1.0e-30]] {
        f.ask(format!("add_keyed 1 {} 1 7ea", v(&[v2[0], v2[1], 0.0, 0.0])));
    }
    f.ask("dump");
    f.label("1: another length");
    for n in [0, 1, 2, 3, 5, 8, 4097, 17_499] {
        f.told(format!("add {} 1", v(&vec![1.0; n])), "refused 1");
    }
    f.ask("dump");
}

// ---- scores

/// Three slots, the one in the middle dead, each scored by two queries.
fn scored(f: &mut Fixed, dim: usize, making: &str, width: u8) {
    f.asks(&[making, &format!("bits {width:x}")]);
    f.ask(format!("add {} 1", nth(dim, 1)));
    f.ask(format!("add_keyed 7 {} 1 ffff", nth(dim, 2)));
    f.ask(format!("add_keyed 8 {} 1 0", nth(dim, 3)));
    f.ask("remove 7 1");
    for slot in 0..3 {
        for query in [1, 4] {
            f.ask(format!("score {slot} {}", nth(dim, query)));
        }
    }
}

fn scores(f: &mut Fixed) {
    f.section("score: live and dead slots, dims 1 to 17, each width and the residual");
    for dim in 1..=17 {
        f.lend(3, block_size(dim, 6));
        for width in [4, 5, 6] {
            scored(f, dim, &format!("new {dim:x} {:x}", 17 * dim), width);
        }
        scored(f, dim, &format!("residual {dim:x} {:x}", 19 * dim), 4);
    }
    f.section("score: what is refused, and in which order");
    let w = nth(4, 1);
    f.lend(3, 4);
    f.ask("new 4 1");
    f.label("9, document 01's example: slot 3 of 3; and slots past that");
    for number in 1..=3 {
        f.ask(format!("add {} 1", nth(4, number)));
    }
    f.told_all(&[&format!("score 3 {w}"), &format!("score 4 {w}"), &format!("score ffffffffffffffff {w}")], "refused 9");
    f.label("1, 2, 3, before 9");
    for slot in [0, 3] {
        f.told(format!("score {slot} {}", v(&[1.0, 2.0, 3.0])), "refused 1");
        f.told(format!("score {slot} -"), "refused 1");
        f.told(format!("score {slot} {}", v(&[0.0; 4])), "refused 2");
        f.told(format!("score {slot} {}", v(&[f32::NAN, 0.0, 0.0, 0.0])), "refused 2");
        f.told(format!("score {slot} {}", v(&[1.0e30, 0.0, 0.0, 0.0])), "refused 3");
    }
    f.label("12, document 01's example: the scale a NaN; other scales are scored");
    for scale in ["7fc00000", "ff800001"] {
        f.ask(format!("set scales 0 {scale}"));
        f.told(format!("score 0 {w}"), "refused 12");
    }
    for scale in ["0", "80000000", "7f800000", "3f800000"] {
        f.ask(format!("set scales 0 {scale}"));
        f.ask(format!("score 0 {w}"));
    }
    f.label("13 before all");
    f.ask("field live 2");
    f.told(format!("score 3 {}", v(&[1.0])), "refused 13");
    f.label("lines that can't be read");
    f.told_all(&["score", "score 0", "score 3f800000", "score 0 3f800000 3f800000", "score 00 3f800000", "score 0 3f80000"], "?");
}

// ---- searches

/// The three searches of one query, k and r, with as many places as they need and more. `cascade` says whether it is on.
fn search_lines(f: &Fixed, k: usize, r: usize, query: &str, cascade: bool) -> Vec<String> {
    let need = k.max(1).min(f.driver.record.live);
    let mut lines = vec![format!("search {k:x} {need:x} {query}"), format!("search_keyed {k:x} {:x} {query}", need + 3)];
    if cascade {
        lines.push(format!("search_cascade {k:x} {r:x} {:x} {query}", need + 1));
    }
    lines
}

fn search_all(f: &mut Fixed, k: usize, r: usize, query: &str, cascade: bool) {
    search_lines(f, k, r, query, cascade).into_iter().for_each(|line| f.ask(line));
}

/// The same where a score may be -0, so that lists may be outside the comparison.
fn search_zeros(f: &mut Fixed, k: usize, r: usize, query: &str, cascade: bool) {
    for line in search_lines(f, k, r, query, cascade) {
        f.either(line);
    }
}

fn searches(f: &mut Fixed) {
    f.section("searches: dims 1 to 17, each width and the residual, a dead slot among six; k of 0, 1, 3, as many as live, more");
    for dim in 1..=17 {
        for (making, width) in [("new", 4), ("new", 5), ("new", 6), ("residual", 4)] {
            f.lend(6, block_size(dim, 6));
            f.asks(&[&format!("{making} {dim:x} {:x}", 23 * dim), &format!("bits {width:x}")]);
            for (number, key) in [Some(7), None, Some(8), Some(7), None, Some(9)].into_iter().enumerate() {
                let w = nth(dim, number as u64);
                f.ask(key.map_or(format!("add {w} 1"), |key| format!("add_multi {key:x} {w} 1")));
            }
            f.ask("remove 8 7ea");
            if width == 4 {
                f.ask("enable");
            }
            for (k, r) in [(0, 0), (1, 1), (3, 2), (5, 5), (6, 9)] {
                search_all(f, k, r, &nth(dim, 40 + k as u64), width == 4);
            }
        }
    }
    f.section("searches: fewer working dimensions, entries past them");
    for (dim, working, width) in [(2, 1, 4), (2, 1, 5), (3, 2, 6), (5, 4, 4), (9, 8, 5), (16, 5, 4), (17, 1, 4), (17, 16, 6)] {
        f.lend(4, block_size(working, 6));
        f.asks(&[&format!("working {dim:x} {working:x} 3"), &format!("bits {width:x}")]);
        for number in 0..4 {
            f.ask(format!("add_keyed {number:x} {} 1 ffff", nth(dim, number)));
        }
        if width == 4 {
            f.ask("enable");
        }
        let mut query = vec![1.0; working];
        query.resize(dim, f32::NAN);
        search_all(f, 3, 3, &v(&query), width == 4);
        search_all(f, 3, 2, &nth(dim, 9), width == 4);
    }
    f.section("searches: an empty index, every slot dead, padded size 1");
    let w = nth(4, 1);
    f.lend(3, 4);
    f.asks(&["new 4 1", "bits 4", "enable"]);
    for k in [0, 1, 5] {
        search_all(f, k, k, &w, true);
    }
    f.ask(format!("add_keyed 7 {w} 1 0"));
    f.ask(format!("add_keyed 8 {} 1 1", nth(4, 2)));
    f.asks(&["remove 7 7ea", "remove 8 ffff", "enable"]);
    for k in [0, 1, 5] {
        search_all(f, k, 0, &w, true);
    }
    f.label("padded size 1 at 4 bits: empty, one slot live, one slot dead");
    f.asks(&["new 1 1", "bits 4", "enable"]);
    search_all(f, 1, 1, "40400000", true);
    f.asks(&["add_keyed 7 40400000 1 0", "enable"]);
    search_all(f, 1, 1, "40400000", true);
    f.ask("remove 7 1");
    search_all(f, 1, 1, "40400000", true);
    f.asks(&["new 1 1", "bits 5", "add_keyed 7 40400000 1 7ea", "add c0400000 1"]);
    search_all(f, 2, 2, "40400000", false);
}

/// Slots with these scales, which all have the same codes: so the scores are equal where the scales are.
fn with_scales(f: &mut Fixed, scales: &[u32]) {
    f.lend(scales.len(), 3);
    f.asks(&["new 4 1", "bits 4"]);
    for (slot, scale) in scales.iter().enumerate() {
        f.ask(format!("add_keyed {:x} {} 1 ffff", slot + 1, nth(4, 1)));
        f.ask(format!("set scales {slot:x} {scale:x}"));
    }
    f.ask("enable");
}

fn ties(f: &mut Fixed) {
    let (one, two, inf) = (0x3f80_0000, 0x4000_0000, 0x7f80_0000);
    let (zero, minus_zero) = (0, 0x8000_0000);
    f.section("ties: which of equal scores stay, and in which order, for every k");
    f.label("document 01: scores 1, 1, 2 with k 2 give slots 2, 1; scores 2, 1, 1 give 0, 1");
    for scales in [[one, one, two], [two, one, one]] {
        with_scales(f, &scales);
        search_all(f, 2, 2, &nth(4, 1), true);
    }
    let lists: &[&[u32]] = &[
        &[one; 7],
        &[one, two, one, two, one, two, one],
        &[two, one, one, one, two, two, one, one],
        &[one, one, one, two, two, two],
        &[zero, minus_zero, zero, minus_zero, zero],
        &[minus_zero, minus_zero, one, zero, zero, minus_zero],
        &[inf, one, inf, zero, inf],
        &[inf + (1 << 31), minus_zero, inf + (1 << 31), one + (1 << 31), one + (1 << 31)],
        &[1, 0x8000_0001, 1, zero, minus_zero, 1],
    ];
    for scales in lists {
        f.label(&format!("scales {}", scales.iter().map(|scale| format!("{scale:08x}")).collect::<Vec<_>>().join(" ")));
        with_scales(f, scales);
        for query in [nth(4, 1), nth(4, 2)] {
            for k in 0..=scales.len() + 1 {
                search_zeros(f, k, k, &query, true);
            }
        }
    }
    f.label("the same with slots removed among them");
    with_scales(f, lists[2]);
    f.asks(&["remove 1 0", "remove 5 1", "remove 7 7ea"]);
    for k in 0..=6 {
        search_all(f, k, 1, &nth(4, 1), true);
    }
}

fn keyed_searches(f: &mut Fixed) {
    f.section("keyed searches: unkeyed hits and repeats are dropped, so the list may be short");
    f.lend(8, 3);
    f.ask("new 4 1");
    for (number, key) in [Some(7), None, Some(7), Some(8), None, Some(7), Some(u64::MAX), Some(0)].into_iter().enumerate() {
        let w = nth(4, 60 + number as u64);
        f.ask(key.map_or(format!("add {w} 1"), |key| format!("add_multi {key:x} {w} 1")));
    }
    for query in 0..4 {
        for k in 0..=9 {
            f.ask(format!("search_keyed {k:x} 8 {}", nth(4, 70 + query)));
        }
    }
    f.label("no key at all");
    f.ask("new 4 1");
    for number in 0..3 {
        f.ask(format!("add {} 1", nth(4, number)));
    }
    f.ask(format!("search_keyed 2 2 {}", nth(4, 1)));
}

/// Document 02, Req 04: "two equal looking lines should then follow slot order", each with its own sign. Six slots of one vector that the query is at right angles to, so
/// that its products cancel to +0, and the scale's sign is the score's.
fn zeros(f: &mut Fixed) {
    f.section("both zeros rank alike (document 02, Req 04): scales of -0 and +0, products that cancel; the lists are stated");
    let (vector, across) = (v(&[1.0, 0.0]), v(&[0.0, 1.0]));
    let scales: [u32; 6] = [0x8000_0000, 0, 0xbf80_0000, 0x3f80_0000, 0, 0x8000_0000];
    for (making, width) in [("new", 4), ("new", 5), ("new", 6), ("residual", 4)] {
        f.label(&format!("{making}, {width} bits"));
        f.lend(6, 2);
        f.asks(&[&format!("{making} 2 1"), &format!("bits {width}")]);
        for (slot, key) in [7, 7, 8, 9, 7, 8].into_iter().enumerate() {
            f.ask(format!("add_multi {key} {vector} 1"));
            f.ask(format!("set scales {slot} {:x}", scales[slot]));
            f.ask(format!("set scales2 {slot} {:x}", scales[slot]));
        }
        for slot in 0..6 {
            f.ask(format!("score {slot} {across}"));
        }
        let all = "list 0:80000000 1:00000000 2:80000000 3:00000000 4:00000000 5:80000000";
        f.told(format!("search 6 6 {across}"), all);
        f.told(format!("search 0 1 {across}"), "list 0:80000000");
        f.told(format!("search 2 2 {across}"), "list 0:80000000 1:00000000");
        f.told(format!("search_keyed 6 6 {across}"), "list 7:80000000 8:80000000 9:00000000");
        f.told(format!("search_keyed 2 2 {across}"), "list 7:80000000");
        if width == 4 {
            f.ask("enable");
            f.told(format!("search_cascade 6 6 6 {across}"), all);
            f.told(format!("search_cascade 2 3 2 {across}"), "list 0:80000000 1:00000000");
            f.told(format!("search_cascade 1 2 1 {across}"), "list 0:80000000");
        }
        f.label("others above and below the zeros: a later slot above them displaces the lowest-numbered zero");
        for query in [&vector, &v(&[-1.0, 0.0])] {
            for k in 0..=7 {
                search_zeros(f, k, k, query, width == 4);
            }
        }
        f.label("without slot 3, compacted, then written and read: slot order is the new one");
        f.asks(&["remove 9 ffff"]);
        f.either("compact");
        let rest = "list 0:80000000 1:00000000 2:80000000 3:00000000 4:80000000";
        f.told(format!("search 5 5 {across}"), rest);
        let file = f.either("write 1000");
        f.ask(format!("read {}", file.strip_prefix("bytes ").expect("a file")));
        f.told(format!("search 5 5 {across}"), rest);
        f.told(format!("search_keyed 5 5 {across}"), "list 7:80000000 8:80000000");
    }
    f.label("a cascade counts its candidates' scores only: the slot of score -0 is none at r 1, and is one at r 2");
    f.asks(&["new 2 1", "bits 4", &format!("add {vector} 1"), &format!("add {} 1", v(&[-1.0, 0.0])), "set scales 0 0", "set scales 1 0", "enable"]);
    f.ask(format!("search_cascade 1 1 1 {vector}"));
    f.told(format!("search_cascade 2 2 2 {vector}"), "list 0:00000000 1:80000000");
    f.told(format!("search 2 2 {vector}"), "list 0:00000000 1:80000000");
}

fn cascades(f: &mut Fixed) {
    f.section("cascades: every r and k over twelve slots, some as near as others");
    for (making, dim) in [("new", 2), ("new", 4), ("new", 7), ("residual", 5)] {
        f.lend(12, block_size(dim, 5));
        f.asks(&[&format!("{making} {dim:x} 5"), "bits 4"]);
        for number in 0..12 {
            f.ask(format!("add_multi {:x} {} 1", number % 5, nth(dim, number % 7)));
        }
        f.asks(&["remove 3 0", "enable"]);
        for r in 0..=11 {
            for k in [0, 1, 2, 5, 10, 11] {
                f.ask(format!("search_cascade {k:x} {r:x} a {}", nth(dim, 80 + r)));
            }
        }
        f.ask(format!("search_cascade 2 ffffffffffffffff 2 {}", nth(dim, 8)));
        f.ask(format!("search_cascade ffffffffffffffff 0 a {}", nth(dim, 8)));
    }
}

fn search_refusals(f: &mut Fixed) {
    f.section("searches: what is refused, and in which order");
    let w = nth(4, 1);
    let three = |rest: &str| [format!("search 2 2 {rest}"), format!("search_keyed 2 2 {rest}"), format!("search_cascade 2 2 2 {rest}")];
    f.lend(4, 3);
    f.ask("new 4 1");
    for number in 1..=3 {
        f.ask(format!("add_keyed {number:x} {} 1 1", nth(4, number)));
    }
    f.label("11, document 01's example: 5 bits");
    f.told(format!("search_cascade 2 2 2 {w}"), "refused 11");
    f.told(format!("search_cascade 2 2 2 {}", v(&[1.0])), "refused 11");
    f.ask("new 4 1");
    f.ask("bits 4");
    for number in 1..=3 {
        f.ask(format!("add_keyed {number:x} {} 1 7ea", nth(4, number)));
    }
    f.label("11: 4 bits, not enabled");
    f.told(format!("search_cascade 2 2 2 {w}"), "refused 11");
    f.ask("enable");
    search_all(f, 2, 2, &w, true);
    f.label("13, document 01's example: a result of 1, two hits; keyed and cascade too, one place short of each k");
    for k in 1..=4 {
        let short = k.min(3) - 1;
        f.told(format!("search {k} {short} {w}"), "refused 13");
        f.told(format!("search_keyed {k} {short} {w}"), "refused 13");
        f.told(format!("search_cascade {k} 1 {short} {w}"), "refused 13");
        search_all(f, k, 1, &w, true);
    }
    f.told_all(&[&format!("search 0 0 {w}"), &format!("search_keyed 0 0 {w}"), &format!("search_cascade 0 0 0 {w}")], "refused 13");
    f.label("1, 2, 3; 13 before them");
    for (entries, number) in [(vec![1.0, 2.0, 3.0], 1), (vec![], 1), (vec![0.0; 4], 2), (vec![f32::NAN, 1.0, 0.0, 0.0], 2), (vec![1.0e30, 0.0, 0.0, 0.0], 3)] {
        let query = v(&entries);
        for line in three(&query) {
            f.told(line, &format!("refused {number}"));
        }
        f.told(format!("search 2 1 {query}"), "refused 13");
        f.told(format!("search_keyed 2 1 {query}"), "refused 13");
        f.told(format!("search_cascade 2 2 1 {query}"), "refused 13");
    }
    f.label("12: the scale of a live slot a NaN; a dead one's doesn't count; 2 before 12");
    for scale in ["7fc00000", "ff800001"] {
        f.ask(format!("set scales 1 {scale}"));
        for line in &three(&w)[..2] {
            f.told(line, "refused 12");
        }
        f.told(format!("search_cascade 2 3 2 {w}"), "refused 12");
        f.told(format!("search 1 1 {w}"), "refused 12");
        f.told(format!("search 2 2 {}", v(&[0.0; 4])), "refused 2");
    }
    f.label("12 of a cascade is over candidates only");
    for query in 1..=4 {
        for r in 1..=3 {
            f.either(format!("search_cascade 1 {r} 1 {}", nth(4, query)));
        }
    }
    f.asks(&["remove 2 ffff", "enable"]);
    search_all(f, 2, 2, &w, true);
    f.label("an infinite scale times a score of 0 is a NaN");
    f.asks(&["set scales 0 7f800000", "set scales 2 0"]);
    search_zeros(f, 2, 2, &w, true);
    f.label("an unkeyed slot's NaN counts in a keyed search");
    f.ask(format!("add {} 1", nth(4, 4)));
    f.ask("set scales 3 7fc00000");
    f.told(format!("search_keyed 1 1 {w}"), "refused 12");
    f.label("13 before all");
    f.ask("field live 2");
    for line in three("-") {
        f.told(line, "refused 13");
    }
    f.label("lines that can't be read");
    f.told_all(
        &[
            "search", "search 1", "search 1 1", &format!("search 1 {w}"), &format!("search 1 1 1 {w}"), &format!("search 1 1001 {w}"),
            &format!("search 01 1 {w}"), &format!("search 1 01 {w}"), &format!("search - 1 {w}"), "search 1 1 3f80000", &format!("search_keyed 1 1001 {w}"),
            &format!("search_keyed 1 {w}"), &format!("search_cascade 1 1 {w}"), &format!("search_cascade 1 1 1001 {w}"),
            &format!("search_cascade 1 1 1 1 {w}"), &format!("search_cascade 1 10000000000000000 1 {w}"), &format!("search_keyd 1 1 {w}"),
        ],
        "?",
    );
    f.label("as many places as the program holds");
    f.ask("field live 3");
    f.ask("set scales 3 3f800000");
    f.either(format!("search 1000 1000 {w}"));
    f.either(format!("search_keyed ffffffffffffffff 1000 {w}"));
}

// ---- games with one trait (document 02, Req 05)

const ONE: u32 = 0x3f80_0000;
const MINUS: u32 = 0x8000_0000;
/// The centroids of the codes at 4 bits, each the binary32 nearest to its decimal: the scores under a prepared entry and a scale of 1.
const CENTROIDS: [u32; 16] = [
    0xbfff_8099, 0xbfc1_9097, 0xbf96_168b, 0xbf63_37a8, 0xbf21_ec1c, 0xbeca_82e8, 0xbe2d_f7e8, 0x3d4c_5b8e, 0x3e8a_1294, 0x3efd_9989, 0x3f3b_776c, 0x3f7c_c2f8,
    0x3fa2_dc33, 0x3fce_563f, 0x4006_2321, 0x402e_5a5c,
];

/// A vector whose first entry has this pattern, with NaNs after it.
fn with_trait(dim: usize, entry: u32) -> String {
    let mut entries = vec![f32::NAN; dim];
    entries[0] = f32::from_bits(entry);
    v(&entries)
}

/// A query worked out by hand over slots that have their numbers as codes and scales of 1.
struct ByHand {
    query: u32,
    /// of the prepared entry, which is 1 or -1
    sign: u32,
    /// The codes' top two bits by rising distance, equals by rising slot.
    near: [usize; 4],
}

/// The first sign of seed 1 is -1 (document 01); that of seed 2 is 1, since its first output is twice the other. Four queries, rotated by the sign 1:
/// - 1 stays 1. Eleven boundaries are below it, 0.868960 the last: code 11, top two bits 2.
/// - -3 becomes -1. Three are below it, -1.026996 the last: code 3, top two bits 0.
/// - 1.6875 times 2^-75: its square, 1.42 times 2^-149, rounds to 2^-149, whose root is 1.41421354 times 2^-75. So the rotated entry is 1.193, which rnorm makes 1.
///   The code is taken of 1.193, above 1.125026 and below 1.413956: 12, top two bits 3.
/// - -1.0625 times 2^-75: its square, 0.56 times 2^-149, rounds to 2^-149 too. The rotated entry is -0.7513, above -0.756128: code 4, top two bits 1.
///
/// By the sign -1 they are -1, 1, -1.193 (code 2, top two bits 0) and 0.7513 (code 10, top two bits 2).
fn by_hand(seed: u64) -> [ByHand; 4] {
    let queries = [ONE, 0xc040_0000, 0x1a58_0000, 0x9a08_0000];
    let (flip, near) = match seed {
        2 => (0, [[2, 1, 3, 0], [0, 1, 2, 3], [3, 2, 1, 0], [1, 0, 2, 3]]),
        1 => (MINUS, [[0, 1, 2, 3], [2, 1, 3, 0], [0, 1, 2, 3], [2, 1, 3, 0]]),
        _ => panic!("worked out for two seeds"),
    };
    std::array::from_fn(|i| ByHand { query: queries[i], sign: queries[i] & MINUS ^ flip, near: near[i] })
}

impl ByHand {
    fn score(&self, code: usize) -> u32 {
        CENTROIDS[code] ^ self.sign
    }

    /// The first k of these slots: centroids rise with their codes.
    fn list(&self, mut slots: Vec<usize>, k: usize) -> String {
        slots.sort_unstable();
        if self.sign == 0 {
            slots.reverse();
        }
        let hits: String = slots.iter().take(k.max(1)).map(|&slot| format!(" {slot:x}:{:08x}", self.score(slot))).collect();
        format!("list{hits}")
    }

    fn cascade(&self, k: usize, r: usize) -> String {
        let nearest = self.near.iter().flat_map(|top| 4 * top..4 * top + 4).take(r.max(k).max(1)).collect();
        self.list(nearest, k)
    }
}

/// Sixteen slots under five keys in turn, all scales 1; the cascade is enabled.
fn sixteen_slots(f: &mut Fixed, making: &str, dim: usize) {
    f.lend(16, 1);
    f.asks(&[making, "bits 4"]);
    for slot in 0..16 {
        f.ask(format!("add_multi {:x} {} 1", slot % 5, with_trait(dim, ONE)));
        f.ask(format!("set scales {slot:x} {ONE:x}"));
    }
    f.ask("enable");
}

/// Each slot gets its number as code, under these high four bits in turn.
fn number_codes(f: &mut Fixed, high: [usize; 4]) {
    f.label(&format!("slot s has code s, and in turn the high four bits {}", high.map(|bits| format!("{bits:x}")).join(", ")));
    for slot in 0..16 {
        f.ask(format!("set codes {slot:x} {:x}", 16 * high[slot % 4] + slot));
    }
}

fn one_trait_codes(f: &mut Fixed) {
    f.section("games with one trait (document 02, Req 05): every code, both signs of entry and rotation, high four bits set; by hand");
    for (making, dim, seed) in [("new 1 2", 1, 2), ("working 3 1 1", 3, 1)] {
        sixteen_slots(f, making, dim);
        let queries = by_hand(seed);
        for high in [[0; 4], [1; 4], [0xf; 4]] {
            number_codes(f, high);
            for query in &queries[..2] {
                for slot in 0..16 {
                    f.told(format!("score {slot:x} {}", with_trait(dim, query.query)), &format!("score {:08x}", query.score(slot)));
                }
            }
        }
        for high in [[0; 4], [0xf, 1, 8, 0]] {
            number_codes(f, high);
            queries.iter().for_each(|query| lists_by_hand(f, dim, query));
        }
        f.label("by key: the best slot of each");
        let (rising, falling) = ("list 0:3fff8099 1:3fc19097 2:3f96168b 3:3f6337a8 4:3f21ec1c", "list 0:402e5a5c 4:40062321 3:3fce563f 2:3fa2dc33 1:3f7cc2f8");
        for query in &queries {
            f.told(format!("search_keyed 10 10 {}", with_trait(dim, query.query)), if query.sign == 0 { falling } else { rising });
        }
    }
}

fn lists_by_hand(f: &mut Fixed, dim: usize, query: &ByHand) {
    let text = with_trait(dim, query.query);
    for k in [0, 1, 5, 16, 17] {
        f.told(format!("search {k:x} 10 {text}"), &query.list((0..16).collect(), k));
    }
    for (k, r) in [(0, 0), (1, 1), (3, 3), (1, 4), (4, 4), (2, 5), (5, 2), (8, 8), (3, 9), (9, 12), (1, 13), (15, 0), (16, 16), (17, 99)] {
        f.told(format!("search_cascade {k:x} {r:x} 10 {text}"), &query.cascade(k, r));
    }
}

/// Byte and scale of a slot's first stage, then those of its second.
fn set_stages(f: &mut Fixed, slot: usize, stages: &[u32]) {
    for (array, value) in ["codes", "scales", "codes2", "scales2"].into_iter().zip(stages) {
        f.ask(format!("set {array} {slot:x} {value:x}"));
    }
}

fn one_trait_residual(f: &mut Fixed) {
    f.section("games with one trait: the two stages of a residual slot are added; by hand, then any bytes and scales");
    let mut random = Random::new(105);
    for (making, dim, sign) in [("residual 1 2", 1, 0), ("residual 1 1", 1, MINUS), ("working 2 1 2", 2, 0), ("working 11 1 1", 17, MINUS)] {
        let query = with_trait(dim, ONE);
        f.lend(6, 1);
        f.asks(&[making, "bits 4", "field residual 1"]);
        for key in [7, 8, 7, 9, 8, 7] {
            f.ask(format!("add_multi {key} {query} 1"));
        }
        for (stages, score) in [
            // 0.987350 less 0.887568, in units of 2^-24: 0xfcc2f8 less 0xe337a8 is 0x198b50.
            ([0xb, ONE, 0x3, ONE], 0x3dcc_5a80),
            ([0xfb, ONE, 0xf3, ONE], 0x3dcc_5a80),
            ([0x13, ONE, 0x8b, ONE], 0x3dcc_5a80),
            // Twice 2.724265, a half of it, and centroids beside a zero.
            ([0x1f, ONE, 0xef, ONE], CENTROIDS[15] + (1 << 23)),
            ([0xff, ONE, 0xff, 0xbf00_0000], CENTROIDS[15] - (1 << 23)),
            ([0x3, ONE, 0xff, 0], CENTROIDS[3]),
            ([0x3, 0, 0xff, ONE], CENTROIDS[15]),
            ([0xf, ONE, 0xf, MINUS ^ ONE], 0),
        ] {
            set_stages(f, 0, &stages);
            // Under an entry of -1 both stages change their signs, and so does the sum, but for that of x and -x, which is +0.
            f.told(format!("score 0 {query}"), &format!("score {:08x}", if score == 0 { 0 } else { score ^ sign }));
        }
        f.ask("enable");
        for entry in [ONE, 0xbf00_0000, 0x1a58_0000] {
            f.label("any bytes and scales");
            for slot in 0..6 {
                let (byte, byte2) = (random.below(256) as u32, random.below(256) as u32);
                set_stages(f, slot, &[byte, random.mixed(3, 3).to_bits(), byte2, random.mixed(3, 3).to_bits()]);
            }
            let query = with_trait(dim, entry);
            for slot in 0..6 {
                f.ask(format!("score {slot} {query}"));
            }
            for (k, r) in [(0, 0), (2, 3), (3, 0), (6, 1), (7, 9)] {
                search_all(f, k, r, &query, true);
            }
        }
        f.label("two slots less, then compacted: both stages move");
        f.ask("remove 8 0");
        search_all(f, 4, 2, &query, true);
        f.told("compact", "ok");
        f.asks(&["dump", "enable"]);
        search_all(f, 4, 2, &query, true);
    }
}

/// No centroid is 0, so a product is 0 by its scale: one that is 0, or so small that the product rounds to 0.
fn one_trait_zeros(f: &mut Fixed) {
    f.section("games with one trait: -0 stays -0 in scores and lists, and ranks as +0 by rising slot; by hand");
    let (one, minus_one) = ("3f800000", "bf800000");
    f.lend(8, 1);
    f.asks(&["new 1 2", "bits 4"]);
    // Of 2^-149, 0.049892 and 0.169891 parts round to 0, and 0.632509 parts to the whole.
    let slots: [(u64, [u32; 2], u32); 8] = [
        (7, [0xf, 0], 0),
        (7, [0xff, MINUS], MINUS),
        (8, [0x10, 0], MINUS),
        (9, [0, MINUS], 0),
        (7, [0x77, 1], 0),
        (8, [7, MINUS + 1], MINUS),
        (6, [0xf6, 1], MINUS),
        (5, [4, 1], MINUS + 1),
    ];
    for (slot, (key, stage, _)) in slots.iter().enumerate() {
        f.ask(format!("add_multi {key} {one} 1"));
        set_stages(f, slot, stage);
    }
    f.ask("enable");
    for (slot, (_, _, score)) in slots.iter().enumerate() {
        f.told(format!("score {slot} {one}"), &format!("score {score:08x}"));
        f.told(format!("score {slot} {minus_one}"), &format!("score {:08x}", score ^ MINUS));
    }
    f.label("slot 7 below the zeros");
    let zeros = "list 0:00000000 1:80000000 2:80000000 3:00000000 4:00000000 5:80000000 6:80000000";
    f.told(format!("search 8 8 {one}"), &format!("{zeros} 7:80000001"));
    f.told(format!("search 7 8 {one}"), zeros);
    f.told(format!("search 2 2 {one}"), "list 0:00000000 1:80000000");
    f.told(format!("search_keyed 8 8 {one}"), "list 7:00000000 8:80000000 9:00000000 6:80000000 5:80000001");
    f.told(format!("search_cascade 8 8 8 {one}"), &format!("{zeros} 7:80000001"));
    f.label("the query's code is 11: codes 0 are at distance 2, all others at 1");
    f.told(format!("search_cascade 3 3 8 {one}"), "list 0:00000000 1:80000000 4:00000000");
    f.told(format!("search_cascade 2 6 8 {one}"), "list 0:00000000 1:80000000");
    f.told(format!("search_cascade 7 7 8 {one}"), "list 0:00000000 1:80000000 2:80000000 4:00000000 5:80000000 6:80000000 7:80000001");
    f.label("slot 7 above the zeros, of which it displaces the lowest-numbered");
    f.told(format!("search 1 1 {minus_one}"), "list 7:00000001");
    f.told(format!("search 2 2 {minus_one}"), "list 7:00000001 1:00000000");
    f.told(format!("search 3 3 {minus_one}"), "list 7:00000001 1:00000000 2:00000000");
    f.told(format!("search_keyed 3 3 {minus_one}"), "list 5:00000001 7:00000000 8:00000000");
    f.label("the query's code is 3: codes 0 are at distance 0, codes 4 to 7 at 1, codes 15 at 3");
    f.told(format!("search_cascade 2 2 8 {minus_one}"), "list 2:00000000 3:80000000");
    f.told(format!("search_cascade 2 6 8 {minus_one}"), "list 7:00000001 3:80000000");
    f.label("residual: -0 and -0 are -0, -0 and +0 are +0");
    f.ask("residual 1 2");
    let slots = [([0xf, MINUS, 0xf, MINUS], [MINUS, 0]), ([0xf, MINUS, 0xf, 0], [0, 0]), ([0, 0, 0xff, MINUS], [MINUS, 0]), ([0xf, 0, 0x1f, 0], [0, MINUS])];
    for (slot, (stages, _)) in slots.iter().enumerate() {
        f.ask(format!("add_multi 7 {one} 1"));
        set_stages(f, slot, stages);
    }
    for (slot, (_, scores)) in slots.iter().enumerate() {
        f.told(format!("score {slot} {one}"), &format!("score {:08x}", scores[0]));
        f.told(format!("score {slot} {minus_one}"), &format!("score {:08x}", scores[1]));
    }
    f.told(format!("search 4 4 {one}"), "list 0:80000000 1:00000000 2:80000000 3:00000000");
    f.told(format!("search 4 4 {minus_one}"), "list 0:00000000 1:00000000 2:00000000 3:80000000");
    f.told(format!("search_keyed 4 4 {one}"), "list 7:80000000");
}

fn one_trait_scales(f: &mut Fixed) {
    let (nan, inf, most) = (0x7fc0_0000, 0x7f80_0000, 0x7f7f_ffff);
    f.section("games with one trait: scales that are infinite, a NaN (12), large or subnormal; by hand");
    let one = "3f800000";
    f.lend(3, 1);
    f.asks(&["new 1 2", "bits 4", &format!("add_keyed 7 {one} 1 1"), &format!("add_keyed 8 {one} 1 7ea"), &format!("add {one} 1")]);
    for (stage, score) in [
        ([0xf, inf], inf),
        ([0x10, inf], MINUS ^ inf),
        ([0xff, MINUS ^ inf], MINUS ^ inf),
        ([0xf, most], inf),
        ([0, most], MINUS ^ inf),
        // 0xcc5b8e, the significand of 0.049892, times 2^24 - 1 is 0.8 of 2^24 less than 0xcc5b8e times 2^24.
        ([0xf7, most], 0x7d4c_5b8d),
        // It has 28 binary places: times 2^-126 it is 0xcc5b8e / 32 units of 2^-149, which are 418,524.4.
        ([7, 0x0080_0000], 418_524),
    ] {
        set_stages(f, 0, &stage);
        f.told(format!("score 0 {one}"), &format!("score {score:08x}"));
    }
    f.label("12: slot 0 has a NaN, and code 3 at distance 2; a cascade's is over candidates only");
    set_stages(f, 1, &[0xfb, ONE]);
    set_stages(f, 2, &[0x1b, ONE]);
    f.ask("enable");
    for scale in [nan, 0xff80_0001] {
        set_stages(f, 0, &[3, scale]);
        for call in ["score 0", "search 1 1", "search_keyed 3 3", "search_cascade 3 0 3", "search_cascade 2 3 2"] {
            f.told(format!("{call} {one}"), "refused 12");
        }
        f.told(format!("score 1 {one}"), "score 3f7cc2f8");
        f.told(format!("search_cascade 1 2 1 {one}"), "list 1:3f7cc2f8");
        f.told(format!("search_cascade 2 2 2 {one}"), "list 1:3f7cc2f8 2:3f7cc2f8");
    }
    f.ask("remove 7 ffff");
    f.told(format!("search 3 3 {one}"), "list 1:3f7cc2f8 2:3f7cc2f8");
    f.told(format!("score 0 {one}"), "refused 12");
    f.label("12 of the sum: an infinity and its opposite, a product past the largest and its opposite; a NaN in either stage");
    f.asks(&["residual 1 2", &format!("add {one} 1")]);
    for stages in [[0xf, inf, 0, inf], [0xf, most, 0x10, most], [0xf, ONE, 0xf, nan], [0xf, nan, 0xf, ONE]] {
        set_stages(f, 0, &stages);
        f.told_all(&[&format!("score 0 {one}"), &format!("search 1 1 {one}")], "refused 12");
    }
    set_stages(f, 0, &[0xf, inf, 0, most]);
    f.told(format!("score 0 {one}"), "refused 12");
    set_stages(f, 0, &[0xf, inf, 0, ONE]);
    f.told(format!("search 1 1 {one}"), "list 0:7f800000");
}

/// The answer to the line has this part.
fn shows(f: &mut Fixed, line: &str, part: &str) {
    let answer = f.either(line);
    assert!(answer.contains(part), "{line}: {answer} lacks {part}");
}

/// What vectors of one trait store, and lists over it. The Rust stores them, and stops at the scores.
fn one_trait_slots(f: &mut Fixed) {
    f.section("games with one trait: slots as they were added, small and large entries, dead slots, overwriting, compaction, equal scores");
    let entries: [f32; 7] = [1.0, -3.0, f32::from_bits(0x1a58_0000), f32::from_bits(0x9a08_0000), 1.8e19, -(2f32.powi(-74)), 0.1];
    // Codes by the sign 1: of 1, -1, 1.193, -0.7513 (as in `by_hand`), 1, -1 and 1; then by the sign -1.
    let (plus, minus) = ("0b030c040b030b", "030b020a030b03");
    for (making, residual, codes) in [("new 1 2", 0, plus), ("working 11 1 1", 0, minus), ("residual 1 2", 1, plus), ("working 2 1 1", 1, minus)] {
        f.lend(7, 1);
        f.asks(&[making, "bits 4", &format!("field residual {residual}")]);
        let dim = f.driver.record.dim;
        let vectors = entries.map(|x| with_trait(dim, x.to_bits()));
        for (slot, w) in vectors.iter().enumerate() {
            f.ask(if slot == 4 { format!("add {w} 1") } else { format!("add_multi {} {w} 1", [7, 8, 7, 9, 0, 6, 8][slot]) });
        }
        shows(f, "dump", &format!(" codes {codes} "));
        f.asks(&["remove 9 0", "enable"]);
        for (turn, w) in vectors.iter().enumerate() {
            for slot in 0..7 {
                f.ask(format!("score {slot} {w}"));
            }
            for (k, r) in [(turn, 6 - turn), (7, turn)] {
                search_all(f, k, r, w, true);
            }
        }
        f.label("key 7's first slot overwritten by its opposite; then compacted, and one more");
        f.ask(format!("add_keyed 7 {} 1 1", vectors[1]));
        f.ask("enable");
        search_all(f, 4, 4, &vectors[0], true);
        f.either("compact");
        f.ask(format!("add_keyed 5 {} 1 7ea", vectors[3]));
        f.asks(&["dump", "enable"]);
        search_all(f, 4, 4, &vectors[0], true);
        search_all(f, 7, 2, &vectors[1], true);
        f.either("write 100");
    }
    f.label("equal scores: slots 0, 1, 2 and 4 have one, slot 3 a higher one");
    f.lend(5, 1);
    f.asks(&["new 1 2", "bits 4"]);
    for (slot, byte) in [0xb, 0xfb, 0x1b, 0xf, 0x8b].into_iter().enumerate() {
        f.ask(format!("add_keyed {slot} 3f800000 1 ffff"));
        set_stages(f, slot, &[byte, ONE]);
    }
    f.ask("enable");
    let equal = |slots: &[usize], score: &str| slots.iter().map(|slot| format!(" {slot}:{score}")).collect::<String>();
    // The first k stay; where slot 3 comes later than these, it displaces slot 0.
    for (k, others) in [(1, &[][..]), (2, &[1]), (3, &[1, 2]), (4, &[0, 1, 2]), (5, &[0, 1, 2, 4])] {
        for search in [format!("search {k} 5"), format!("search_keyed {k} 5"), format!("search_cascade {k} 5 5")] {
            f.told(format!("{search} 3f800000"), &format!("list 3:402e5a5c{}", equal(others, "3f7cc2f8")));
        }
    }
    f.told("search 3 5 bf800000", &format!("list{}", equal(&[0, 1, 2], "bf7cc2f8")));
    f.told("search 5 5 bf800000", &format!("list{} 3:c02e5a5c", equal(&[0, 1, 2, 4], "bf7cc2f8")));
}

/// A file of six slots with one trait whose code bytes are these, in the second stage as well.
fn one_trait_file(version: u16, dim: u32, working: u16, bytes: [u8; 6], bytes2: [u8; 6]) -> Vec<u8> {
    let stated = File { working, ..File::new(version, dim, 4, 6, &[(0, 7), (1, 8), (2, 7), (4, 9)]) };
    let mut file = stated.bytes();
    let codes = if version == 261 { 25 } else { 24 } + 6 * 2;
    file[codes..codes + 6].copy_from_slice(&bytes);
    if version == 260 {
        file[codes + 18..codes + 24].copy_from_slice(&bytes2);
    }
    file
}

/// Every slot scored, and lists, by a query at distance 0 of slots that another isn't near to.
fn one_trait_questions(f: &mut Fixed) -> Vec<String> {
    let dim = f.driver.record.dim;
    let mut answers = Vec::new();
    for query in [ONE, 0x9a08_0000].map(|entry| with_trait(dim, entry)) {
        let mut lines: Vec<String> = (0..f.driver.record.n).map(|slot| format!("score {slot} {query}")).collect();
        for (k, r) in [(6, 6), (2, 3)] {
            lines.extend(search_lines(f, k, r, &query, true));
        }
        answers.extend(lines.into_iter().map(|line| f.either(line)));
    }
    answers
}

/// "The high four bits count for nothing"; 01: "Spare bits are 0 after an append; an overwrite keeps them."
fn one_trait_files(f: &mut Fixed) {
    f.section("games with one trait: files whose high four bits are set, scored, searched, overwritten, compacted, written");
    let (bytes, bytes2) = ([0xf3, 0x1b, 0xe4, 0x0c, 0x97, 0x80], [0x34, 0xf3, 0x0f, 0xc8, 0x21, 0xd6]);
    for (version, dim, working) in [(257, 1, 0), (258, 3, 1), (259, 1, 0), (259, 2, 1), (260, 1, 0), (260, 17, 1), (261, 17, 1)] {
        f.label(&format!("version {version}, dim {dim}, working_dim field {working}: the high four bits clear, then set, and the same answers"));
        f.lend(7, 1);
        let low = |bytes: [u8; 6]| bytes.map(|byte| byte & 0xf);
        assert_eq!(read(f, &one_trait_file(version, dim, working, low(bytes), low(bytes2))), "ok");
        f.ask("enable");
        let clear = one_trait_questions(f);
        assert_eq!(read(f, &one_trait_file(version, dim, working, bytes, bytes2)), "ok");
        f.ask("enable");
        assert_eq!(one_trait_questions(f), clear, "the high four bits count");
        if version < 259 {
            // Without keys nothing is overwritten.
            continue;
        }
        f.label("slots 0 and 4 overwritten: by the file's seed the sign is -1, so -1 has code 11, and 1 has 3");
        f.ask(format!("add_keyed 7 {} 1 0", with_trait(dim as usize, MINUS ^ ONE)));
        f.ask(format!("add_keyed 9 {} 1 1", with_trait(dim as usize, ONE)));
        shows(f, "dump", " codes fb1be40c938000 ");
        if version == 260 {
            shows(f, "dump", " codes2 3bf30fc823d600 ");
        }
        shows(f, "write 100", "fb1be40c9380");
        f.ask("enable");
        one_trait_questions(f);
        f.label("slot 1 removed, compacted, written and read again, then one more, whose high four bits are 0");
        f.ask("remove 8 7ea");
        f.either("compact");
        f.ask("enable");
        one_trait_questions(f);
        let file = f.either("write 100");
        f.either(format!("read {}", file.strip_prefix("bytes ").expect("a file")));
        shows(f, "dump", " codes fbe40c93808000 ");
        f.ask(format!("add {} 1", with_trait(dim as usize, ONE)));
        shows(f, "dump", " codes fbe40c93800300 ");
    }
}

fn one_trait_refusals(f: &mut Fixed) {
    f.section("games with one trait: what is refused, and in which order");
    let one = "3f800000";
    let searches = |rest: &str| [format!("search 1 1 {rest}"), format!("search_keyed 1 1 {rest}"), format!("search_cascade 1 1 1 {rest}")];
    let faults = [("-", 1), ("3f8000003f800000", 1), ("00000000", 2), ("80000000", 2), ("7fc00000", 2), ("1a000000", 2), ("7149f2ca", 3), ("7f800000", 3)];
    for making in ["new 1 1", "residual 1 1"] {
        f.lend(2, 1);
        f.asks(&[making, "bits 4"]);
        f.label("no slot is in use: 9, and empty lists; 11 before all but 13");
        f.told(format!("score 0 {one}"), "refused 9");
        f.told_all(&[&format!("search_cascade 1 1 1 {one}"), "search_cascade 1 1 0 -"], "refused 11");
        f.ask("enable");
        search_all(f, 3, 3, one, true);
        f.asks(&["add_keyed 7 40400000 1 ffff", "add_keyed 8 c0400000 1 0"]);
        f.told("search_cascade 1 1 1 -", "refused 11");
        f.ask("enable");
        f.label("1, 2, 3; before them 13 of the places; after them 9");
        for (query, number) in faults {
            let answer = format!("refused {number}");
            for line in searches(query) {
                f.told(line, &answer);
            }
            f.told_all(&[&format!("score 0 {query}"), &format!("score 2 {query}")], &answer);
            f.told(format!("search 2 1 {query}"), "refused 13");
        }
        f.told_all(&[&format!("score 2 {one}"), &format!("score ffffffffffffffff {one}")], "refused 9");
        f.label("12 after all of these");
        f.asks(&["set scales 0 7fc00000", "set scales 1 7fc00000"]);
        for line in searches(one) {
            f.told(line, "refused 12");
        }
        f.told(format!("score 0 {one}"), "refused 12");
        f.told(format!("score 2 {one}"), "refused 9");
        f.told_all(&["search 1 1 00000000", "search_cascade 1 1 1 00000000", "score 0 00000000"], "refused 2");
        f.told_all(&[&format!("search 2 1 {one}"), &format!("search_keyed 2 1 {one}"), &format!("search_cascade 2 2 1 {one}")], "refused 13");
        f.label("no slot is live: empty lists, but a dead slot is scored");
        f.asks(&["set scales 0 3f9036dd", "set scales2 0 0", "remove 7 1", "remove 8 7ea"]);
        search_all(f, 2, 2, one, true);
        // 3 has code 3 by the sign -1: 0.887568 times 1.1266743, the inverse's nearest, is 1. In the residual's second stage the product is +0.
        f.told(format!("score 0 {one}"), "score 3f800000");
        f.told(format!("score 1 {one}"), "refused 12");
        f.label("13 before all");
        f.ask("field live 1");
        for line in searches("-") {
            f.told(line, "refused 13");
        }
        f.told("score 2 -", "refused 13");
    }
}

// ---- files

/// The file's length, then the file: too short by one, just as long, and longer.
fn written(f: &mut Fixed) {
    let Answer::Rust(length) = f.driver.clone().answer(b"length") else { panic!("no length") };
    let length = usize::from_str_radix(length.strip_prefix("length ").expect("a length"), 16).expect("a number");
    f.ask("length");
    f.told(format!("write {:x}", length - 1), "refused 13");
    f.ask(format!("write {length:x}"));
    f.ask(format!("write {:x}", length + 3));
}

fn files(f: &mut Fixed) {
    f.section("files: dims 1 to 17, each width and the residual, with and without keys, a dead slot");
    for dim in 1..=17 {
        for (making, width) in [("new", 4), ("new", 5), ("new", 6), ("residual", 4)] {
            f.lend(4, block_size(dim, 6));
            f.asks(&[&format!("{making} {dim:x} {:x}", 29 * dim), &format!("bits {width:x}")]);
            written(f);
            for (number, key) in [None, Some(8), Some(7), Some(7)].into_iter().enumerate() {
                let w = nth(dim, number as u64);
                f.ask(key.map_or(format!("add {w} 1"), |key| format!("add_multi {key:x} {w} 1")));
            }
            written(f);
            f.ask("remove 8 ffff");
            written(f);
            f.ask("remove 7 0");
            written(f);
        }
    }
    f.label("document 01: dim 1, seed 1, width 5, 3.0 added unkeyed");
    f.lend(1, 1);
    f.asks(&["new 1 1", "add 40400000 1"]);
    written(f);
    f.section("files: working_dim, large seeds and keys, scales at the edges of a half, spare bits");
    f.lend(3, 5);
    f.ask("working 9 5 ffffffffffffffff");
    f.ask(format!("add_keyed ffffffffffffffff {} 1 1", nth(9, 1)));
    f.ask(format!("add_keyed 102030405060708 {} 1 7ea", nth(9, 2)));
    f.ask(format!("add_keyed 0 {} 1 ffff", nth(9, 3)));
    written(f);
    for scale in ["0", "80000000", "7f800000", "ff800000", "7fc00000", "ffc00001", "7f800001", "477fefff", "477ff000", "33000000", "33000001", "387fe000", "3f801000"] {
        f.ask(format!("set scales 1 {scale}"));
        f.ask("write 100");
    }
    f.lend(2, 1);
    f.asks(&["new 1 1", "add 40400000 1", "set codes 0 ff", "write 100"]);
    f.asks(&["residual 1 1", "add 40400000 1", "set codes 0 ff", "set codes2 0 f3", "set scales2 0 7fffffff", "write 100"]);
    f.label("13 of the index before that of the file");
    f.ask("field live 2");
    f.told_all(&["length", "write 0", "write 100"], "refused 13");
    f.label("lines that can't be read");
    f.told_all(&["length 0", "write", "write 10001", "write 01", "write -", "write 1 1"], "?");
    f.ask("field live 1");
    f.ask("write 10000");
}

// ---- reading

/// A file of so many slots, of entries that come from a seed. `keys` are the key entries: slot and key. `years` are those of a file of 262 to 264.
struct File {
    version: u16,
    working: u16,
    dim: u32,
    width: u8,
    count: usize,
    keys: Vec<(u32, u64)>,
    years: Vec<u16>,
}

impl File {
    fn new(version: u16, dim: u32, width: u8, count: usize, keys: &[(u32, u64)]) -> Self {
        File { version, working: 0, dim, width, count, keys: keys.to_vec(), years: Vec::new() }
    }

    fn block(&self) -> usize {
        let ignored = self.version == 257 || self.working == 0;
        block_size(if ignored { self.dim as usize } else { self.working as usize }, self.width)
    }

    fn has_width(&self) -> bool {
        matches!(self.version, 261 | 264)
    }

    fn stages(&self) -> usize {
        if matches!(self.version, 260 | 263) { 2 } else { 1 }
    }

    /// Where the key table begins.
    fn table(&self) -> usize {
        24 + usize::from(self.has_width()) + self.stages() * self.count * (2 + self.block())
    }

    fn bytes(&self) -> Vec<u8> {
        let mut random = Random::new(u64::from(self.version) + u64::from(self.dim));
        let mut file = b"VECQ".to_vec();
        file.extend(self.version.to_le_bytes());
        file.extend(self.working.to_le_bytes());
        file.extend(self.dim.to_le_bytes());
        file.extend(0x0123_4567_89ab_cdef_u64.to_le_bytes());
        file.extend((self.count as u32).to_le_bytes());
        if self.has_width() {
            file.push(self.width);
        }
        for _ in 0..self.stages() {
            for slot in 0..self.count {
                file.extend((0x3800 + 0x123 * slot as u16 % 0x4000).to_le_bytes());
            }
            file.extend((0..self.count * self.block()).map(|_| random.word() as u8));
        }
        if self.version >= 259 {
            file.extend((self.keys.len() as u32).to_le_bytes());
            for (slot, key) in &self.keys {
                file.extend(slot.to_le_bytes());
                file.extend(key.to_le_bytes());
            }
        }
        file.extend(self.years.iter().flat_map(|year| year.to_le_bytes()));
        file
    }
}

fn read(f: &mut Fixed, file: &[u8]) -> String {
    f.either(format!("read {}", bytes(file)))
}

/// Each version that is read, the widths of 261, with a working_dim below dim where the version has it.
fn versions(dim: u32, count: usize, keys: &[(u32, u64)]) -> Vec<File> {
    let mut files: Vec<File> = [(257, 4), (258, 4), (259, 4), (260, 4), (261, 4), (261, 5), (261, 6)]
        .map(|(version, width)| File::new(version, dim, width, count, keys))
        .into();
    files.extend([257, 258, 260].map(|version| File { working: dim as u16 - 1, ..File::new(version, dim, 4, count, keys) }));
    files
}

fn readings(f: &mut Fixed) {
    f.section("reading: every version, then the index as it is: dump, questions, a search, the file again, an add");
    for (dim, count, keys) in [(3, 3, vec![(2, 7), (0, 7), (1, u64::MAX)]), (5, 2, vec![(1, 9)]), (2, 0, vec![]), (9, 1, vec![])] {
        for file in versions(dim, count, &keys) {
            f.lend(4, 12);
            f.label(&format!("version {}, width {}, working_dim field {}", file.version, file.width, file.working));
            assert_eq!(read(f, &file.bytes()), "ok");
            f.asks(&["dump", "contains 7", "slot_at 7 0", "slot_at 7 1", "key_of 1"]);
            let query = nth(dim as usize, 1);
            f.ask(format!("search 2 2 {query}"));
            f.ask(format!("search_keyed 3 3 {query}"));
            f.ask("length");
            f.ask("write 200");
            f.ask(format!("add_keyed 7 {query} 1 0"));
            f.asks(&["dump", "write 200"]);
        }
    }
    f.section("reading: what was written comes back, over arrays that held other things");
    for making in ["new 5 3", "working 9 6 4", "residual 3 5", "new 8 0"] {
        f.lend(6, 8);
        f.ask(making);
        let dim = f.driver.record.dim;
        for number in 0..5 {
            f.ask(format!("add_multi {:x} {} 1", number % 3, nth(dim, number)));
        }
        f.asks(&["remove_at 1 1 1", "remove_at 0 0 7ea", "dump"]);
        let Answer::Rust(file) = f.driver.clone().answer(b"write 1000") else { panic!("no file") };
        let file = file.strip_prefix("bytes ").expect("bytes").to_string();
        f.ask("write 1000");
        f.either(format!("read {file}"));
        f.asks(&["dump", "write 1000"]);
        f.label("and into arrays that are all 0");
        f.lend(3, 8);
        f.either(format!("read {file}"));
        f.asks(&["dump", "write 1000"]);
    }
    f.section("reading: scales as they stand, subnormal halves (ours), NaNs");
    f.lend(1, 1);
    let mut file = File::new(259, 1, 4, 1, &[]).bytes();
    for half in [0u16, 0x8000, 1, 0x8001, 0x3ff, 0x400, 0x7bff, 0x7c00, 0xfc00, 0x7c01, 0xfe00, 0x7fff, 0xffff] {
        file[24..26].copy_from_slice(&half.to_le_bytes());
        read(f, &file);
        f.asks(&["dump", "write 100"]);
    }
    f.label("bytes after the last block are passed over; 261 with width 4 is written back as 259; a working_dim field equal to dim becomes 0");
    f.lend(2, 4);
    let mut file = File::new(261, 3, 4, 2, &[(1, 5)]).bytes();
    file.extend([1, 2, 3]);
    file[6] = 3;
    read(f, &file);
    f.asks(&["dump", "write 100"]);
}

fn cuts_and_damage(f: &mut Fixed) {
    f.section("reading: each file cut at every length");
    f.lend(2, 4);
    for file in versions(2, 2, &[(1, 9), (0, 9)]) {
        cuts(f, &file);
        f.ask("dump");
    }
    f.section("reading: each byte of header and key table damaged");
    for file in versions(2, 2, &[(1, 9), (0, 9)]) {
        damages(f, &file);
        f.ask("dump");
    }
}

/// The answers to a file cut at each length, the whole one last.
fn cuts(f: &mut Fixed, file: &File) -> Vec<String> {
    let whole = file.bytes();
    (0..=whole.len()).map(|length| read(f, &whole[..length])).collect()
}

/// The answers where a bit is changed, two of each byte of the head and of what stands behind scales and codes.
fn damages(f: &mut Fixed, file: &File) -> Vec<String> {
    let whole = file.bytes();
    let head = 24 + usize::from(file.has_width());
    let mut answers = Vec::new();
    for at in (0..head).chain(file.table()..whole.len()) {
        for change in [0x01, 0x80] {
            let mut damaged = whole.clone();
            damaged[at] ^= change;
            answers.push(read(f, &damaged));
        }
    }
    answers
}

/// The file with other bytes from there on.
fn with(file: &[u8], at: usize, bytes: &[u8]) -> Vec<u8> {
    let mut other = file.to_vec();
    other[at..at + bytes.len()].copy_from_slice(bytes);
    other
}

fn reading_refusals(f: &mut Fixed) {
    f.section("reading: document 01's examples of refusals, and which comes first; nothing changes");
    f.lend(2, 4);
    f.ask("new 4 1");
    f.ask(format!("add_keyed 7 {} 1 ffff", nth(4, 1)));
    f.ask("dump");
    let file = |version, dim, count: usize| File::new(version, dim, 4, count, &[]).bytes();
    let whole = file(259, 4, 1);
    let refused = |f: &mut Fixed, what: &str, file: &[u8], number: u8| {
        f.label(what);
        assert_eq!(read(f, file), format!("refused {number}"), "{what}");
    };
    refused(f, "14: 23 bytes", &whole[..23], 14);
    refused(f, "14 before 15", b"VECR", 14);
    refused(f, "15: VECR", &with(&whole, 0, b"VECR"), 15);
    refused(f, "15 before 16", &with(&with(&whole, 0, b"VECR"), 4, &[9, 1]), 15);
    refused(f, "16: 265", &with(&whole, 4, &[9, 1]), 16);
    refused(f, "16 before 17", &with(&with(&whole, 4, &[9, 1]), 6, &[5, 0]), 16);
    refused(f, "17: 5 over 4", &with(&whole, 6, &[5, 0]), 17);
    refused(f, "17 before the width byte's 14", &with(&with(&whole[..24], 4, &[5, 1]), 6, &[5, 0]), 17);
    refused(f, "14: no width byte", &with(&whole[..24], 4, &[5, 1]), 14);
    refused(f, "that before 20", &with(&with(&whole[..24], 4, &[5, 1]), 8, &[1, 0x10, 0, 0]), 14);
    let wide = File::new(261, 4, 5, 1, &[]).bytes();
    refused(f, "18: width byte 3", &with(&wide, 24, &[3]), 18);
    refused(f, "18: width byte 7", &with(&wide, 24, &[7]), 18);
    refused(f, "18 before 20", &with(&with(&wide, 24, &[3]), 8, &[1, 0x10, 0, 0]), 18);
    refused(f, "20: dim 4,097", &with(&whole, 8, &[1, 0x10, 0, 0]), 20);
    refused(f, "20: count 65,537", &with(&whole, 20, &[1, 0, 1, 0]), 20);
    refused(f, "20: a slot more than the lent arrays hold", &file(259, 4, 3), 20);
    refused(f, "20 before 14", &file(259, 4, 3)[..24], 20);
    refused(f, "14: the first block", &whole[..27], 14);
    refused(f, "17: dim 0", &with(&file(259, 1, 1), 8, &[0; 4]), 17);
    refused(f, "the first block's 14 before dim 0", &with(&file(259, 1, 1)[..25], 8, &[0; 4]), 14);
    refused(f, "dim 0 before the rest's 14", &with(&file(259, 1, 1)[..27], 8, &[0; 4]), 17);
    refused(f, "14: the key count", &whole[..29], 14);
    refused(f, "19: slot 1 of 1", &File::new(259, 4, 4, 1, &[(1, 7)]).bytes(), 19);
    refused(f, "19: a slot twice", &File::new(259, 4, 4, 2, &[(1, 7), (1, 8)]).bytes(), 19);
    refused(f, "14 of a key entry before 19", &File::new(259, 4, 4, 1, &[(1, 7), (0, 8)]).bytes()[..50], 14);
    refused(f, "14: a 260 file that ends before its key count (ours)", &file(260, 4, 1)[..32], 14);
    f.label("nothing changed");
    f.ask("dump");
    for (lengths, array) in [
        ("2 2 2 2 2 1 4 2 2", "codes"), ("4 1 2 2 2 1 4 2 2", "scales"), ("4 2 1 2 2 1 4 2 2", "keys"), ("4 2 2 1 2 1 4 2 2", "keyed"),
        ("4 2 2 2 1 1 4 2 2", "held"), ("4 2 2 2 2 1 4 2 1", "years"),
    ] {
        f.label(&format!("20: room for one slot in {array}"));
        f.ask(format!("lend {lengths}"));
        assert_eq!(read(f, &file(259, 4, 2)), "refused 20");
        assert_eq!(read(f, &file(259, 4, 1)), "ok");
    }
    for (lengths, array) in [("4 2 2 2 2 1 2 2 2", "codes2"), ("4 2 2 2 2 1 4 1 2", "scales2")] {
        f.label(&format!("20: room for one slot in {array}, which counts only if the file is residual"));
        f.ask(format!("lend {lengths}"));
        assert_eq!(read(f, &file(260, 4, 2)), "refused 20");
        assert_eq!(read(f, &file(259, 4, 2)), "ok");
    }
    f.label("reading never gives 13: a misfit before it, arrays of length 0 for an empty file");
    f.asks(&["field live 3", "field bits 9"]);
    f.told("contains 7", "refused 13");
    assert_eq!(read(f, &file(259, 4, 1)), "ok");
    f.ask("dump");
    f.ask("lend 0 0 0 0 0 0 0 0 0");
    assert_eq!(read(f, &file(260, 4, 0)), "ok");
    f.asks(&["dump", "length"]);
    f.label("lines that can't be read");
    f.told_all(&["read", "read 0", "read 0g", "read - -", "read 00 00", "read 0A"], "?");
    f.ask("read -");
}

/// A whole file of version 1, as it was read before: that of 257 but for its version and its scales, which are binary32.
fn file_of_version_1(dim: u32, working: u16, scales: &[u32]) -> Vec<u8> {
    let mut file = File { working, ..File::new(257, dim, 4, scales.len(), &[]) }.bytes();
    file.splice(24..24 + 2 * scales.len(), scales.iter().flat_map(|scale| scale.to_le_bytes()));
    with(&file, 4, &[1, 0])
}

/// "The reader now gives 16 for version 1, at 16's place": the Rust reads these files, and is not asked.
fn version_one(f: &mut Fixed) {
    f.section("reading: version 1 is unknown (document 02, Req 07): 16 at its place; by hand, and nothing changes");
    let refused = |f: &mut Fixed, file: &[u8], number: u8| f.told(format!("read {}", bytes(file)), &format!("refused {number}"));
    let query = nth(3, 1);
    f.lend(4, 2);
    f.asks(&["new 3 1", "bits 4", &format!("add_keyed 7 {query} 1 0"), &format!("add {} 1", nth(3, 2)), "enable", "dump"]);
    f.label("whole files, of one trait and without slots too; version 1 ignored the working_dim field");
    for (dim, working, slots) in [(1, 0, 1), (1, 1, 2), (2, 0, 0), (2, 1, 2), (3, 0, 3), (3, 2, 3), (5, 4, 1), (9, 0, 0), (4096, 0, 0)] {
        refused(f, &file_of_version_1(dim, working, &[ONE, 0x3e80_0000, 0x4040_0000][..slots]), 16);
    }
    f.label("whatever the scales: zeros, subnormal numbers, infinities, NaNs, what no half has");
    for scale in [0, MINUS, 1, 0x7f80_0000, 0xff80_0000, 0x7f80_0001, 0x7fc0_0000, 0xffc0_0000, 0x477f_f000, 0x3f80_1000] {
        refused(f, &file_of_version_1(3, 0, &[scale, ONE]), 16);
    }
    f.label("cut at every length, then with bytes behind the end: 14 of fewer than 24 bytes alone");
    let whole = file_of_version_1(2, 0, &[ONE, ONE]);
    let longer = [&whole[..], &[1, 2, 3]].concat();
    // A file of fewer than six bytes states no version.
    for length in 6..=longer.len() {
        refused(f, &longer[..length], if length < 24 { 14 } else { 16 });
    }
    f.label("15 before 16, 14 before 15");
    let other = with(&whole, 0, b"VECR");
    refused(f, &other, 15);
    refused(f, &other[..24], 15);
    refused(f, &other[..23], 14);
    f.label("16 before 17: a working_dim field over dim; dim 0, the first block whole and short");
    refused(f, &with(&whole, 6, &[3, 0]), 16);
    refused(f, &with(&whole, 6, &[0xff, 0xff]), 16);
    let none = with(&file_of_version_1(1, 0, &[ONE]), 8, &[0; 4]);
    refused(f, &none, 16);
    refused(f, &none[..28], 16);
    refused(f, &with(&none, 6, &[1, 0]), 16);
    f.label("16 before 20: dim 4,097 and 2^32 - 1, count 65,537, a slot more than the lent arrays hold");
    refused(f, &with(&whole, 8, &[1, 0x10, 0, 0]), 16);
    refused(f, &with(&whole, 8, &[0xff; 4]), 16);
    refused(f, &with(&whole, 20, &[1, 0, 1, 0]), 16);
    refused(f, &file_of_version_1(3, 0, &[ONE; 5]), 16);
    f.label("behind the version each byte of the head damaged");
    for at in 6..24 {
        for change in [0x01, 0x80] {
            refused(f, &with(&whole, at, &[whole[at] ^ change]), 16);
        }
    }
    f.label("0, 2 and 256 are as unknown");
    for version in [0u16, 2, 256] {
        assert_eq!(read(f, &with(&whole, 4, &version.to_le_bytes())), "refused 16");
    }
    f.label("nothing changed");
    f.asks(&["dump", "contains 7", "key_of 0", &format!("score 1 {query}"), &format!("search 2 2 {query}"), "length", "write 100"]);
    f.ask(format!("search_cascade 2 2 2 {query}"));
    f.label("reading never gives 13: a misfit before it, arrays of length 0");
    f.ask("field live 1");
    f.told("contains 7", "refused 13");
    refused(f, &whole, 16);
    f.ask("lend 0 0 0 0 0 0 0 0 0");
    for scales in [&[ONE][..], &[]] {
        refused(f, &file_of_version_1(1, 0, scales), 16);
    }
    f.label("257, which ignores the working_dim field too, is read");
    f.lend(4, 2);
    assert_eq!(read(f, &File { working: 2, ..File::new(257, 3, 4, 3, &[]) }.bytes()), "ok");
    refused(f, &whole, 16);
    f.ask("dump");
}

fn order(f: &mut Fixed) {
    f.section("which refusal comes first");
    f.label("making: 4, then 13");
    f.ask("lend 0 0 0 0 0 0 0 0 0");
    f.told_all(
        &[
            "new 0 1", "new 1001 1", "new ffffffffffffffff 1", "working 4 0 1", "working 4 5 1", "working 0 0 1", "working 1001 4 1", "residual 0 1",
            "residual 1001 1",
        ],
        "refused 4",
    );
    f.told_all(&["new 1 1", "new 1000 1", "working 4 4 1", "working 1000 1 1", "residual 4 1"], "refused 13");
    f.label("width: 5, 6, 7");
    f.lend(1, 2);
    f.ask("residual 4 1");
    f.told_all(&["bits 0", "bits 3", "bits 7", "bits ff"], "refused 5");
    f.told_all(&["bits 5", "bits 6"], "refused 7");
    f.ask(format!("add_keyed 7 {} 1 1", nth(4, 1)));
    f.told_all(&["bits 3", "bits 7"], "refused 5");
    f.told_all(&["bits 4", "bits 5", "bits 6"], "refused 6");
    f.label("dead slots are in use");
    f.ask("remove 7 7ea");
    f.told_all(&["bits 4", "bits 5"], "refused 6");
    f.label("add: 1, 2, 3, 8");
    for call in ["add", "add_keyed 7", "add_keyed 8", "add_multi 7"] {
        f.told(adding(call, &v(&[0.0; 3])), "refused 1");
        f.told(adding(call, &v(&[0.0; 4])), "refused 2");
        f.told(adding(call, &v(&[1.0e30; 4])), "refused 3");
        f.told(adding(call, &v(&[1.0; 4])), "refused 8");
    }
    f.ask("dump");
    f.label("13 before all");
    f.ask("field live 1");
    f.told_all(&["bits 3", "bits 4", "bits 5"], "refused 13");
    f.told(format!("add {} 1", v(&[0.0; 3])), "refused 13");
    f.told(format!("add_keyed 7 {} 1 ffff", v(&[0.0; 4])), "refused 13");
    f.told(format!("add_multi 7 {} 1", v(&[1.0e30; 4])), "refused 13");
    f.told("enable", "refused 13");
    f.ask("field live 0");
    f.ask("dump");
}

// ---- 13

fn making_misfits(f: &mut Fixed) {
    f.section("13 of making: a lent array holds no slot");
    // Dim 4: 3 bytes at 5 bits, 2 at 4.
    f.asks(&["lend 3 1 1 1 1 1 0 0 1", "new 4 1", "lend 2 1 1 1 1 1 2 1 1", "residual 4 1", "dump"]);
    for (lengths, array) in [
        ("2 1 1 1 1 1 0 0 1", "codes"),
        ("3 0 1 1 1 1 0 0 1", "scales"),
        ("3 1 0 1 1 1 0 0 1", "keys"),
        ("3 1 1 0 1 1 0 0 1", "keyed"),
        ("3 1 1 1 0 1 0 0 1", "held"),
        ("3 1 1 1 1 0 0 0 1", "alive"),
        ("3 1 1 1 1 1 0 0 0", "years"),
    ] {
        f.label(&format!("no slot in {array}"));
        f.ask(format!("lend {lengths}"));
        f.told_all(&["new 4 2", "working 4 3 2"], "refused 13");
    }
    for (lengths, array) in [
        ("1 1 1 1 1 1 2 1 1", "codes"),
        ("2 0 1 1 1 1 2 1 1", "scales"),
        ("2 1 0 1 1 1 2 1 1", "keys"),
        ("2 1 1 0 1 1 2 1 1", "keyed"),
        ("2 1 1 1 0 1 2 1 1", "held"),
        ("2 1 1 1 1 0 2 1 1", "alive"),
        ("2 1 1 1 1 1 1 1 1", "codes2"),
        ("2 1 1 1 1 1 2 0 1", "scales2"),
        ("2 1 1 1 1 1 2 1 0", "years"),
    ] {
        f.label(&format!("residual, no slot in {array}"));
        f.ask(format!("lend {lengths}"));
        f.told("residual 4 2", "refused 13");
    }
    f.label("the record stayed");
    f.ask("lend 2 1 1 1 1 1 2 1 1");
    f.ask("dump");
}

/// Four dead slots in use, so that arrays lent anew, all zeros, fit if they are long enough.
fn short_arrays(f: &mut Fixed) {
    let names = ["codes", "scales", "keys", "keyed", "held", "alive", "codes2", "scales2", "years"];
    for residual in [false, true] {
        f.section(if residual { "13: a lent array too short for the slots in use, residual" } else { "13: a lent array too short for the slots in use" });
        f.lend(4, 2);
        f.ask(if residual { "residual 4 1" } else { "new 4 1" });
        f.asks(&["bits 4", "field n 4"]);
        let whole = [8, 4, 4, 4, 4, 1, 8, 4, 4];
        for short in 0..9 {
            let mut lengths = whole;
            lengths[short] -= 1;
            f.label(&format!("one element fewer in {}", names[short]));
            f.ask(format!("lend {}", lengths.map(|n| format!("{n:x}")).join(" ")));
            if !names[short].ends_with('2') || residual {
                for line in some_calls(short) {
                    f.told(line, "refused 13");
                }
            } else {
                f.label("which counts only if residual");
                f.asks(&["contains 7", "key_of 3", "remove_at 7 3 0"]);
            }
        }
        f.label("as long as needed");
        f.lend(4, 2);
        f.asks(&["contains 7", "key_of 0", "dump"]);
        if residual {
            f.told("compact", "ok");
        } else {
            f.ask("compact");
        }
        f.ask("dump");
    }
    f.label("a poked record as the language prints it");
    f.asks(&["lend 1 1 1 1 1 1 0 0 1", "new 1 0", "field n 2"]);
    f.told(
        "dump",
        "record 1 1 0 5 0 2 0 0 codes 00 scales 00000000 keys 0000000000000000 keyed 0 held 00000000 alive 0000000000000000 codes2 - scales2 - years 0000",
    );
    f.asks(&[
        "field dim ffffffffffffffff", "field working_dim 0", "field seed ffffffffffffffff", "field bits ff", "field residual 1", "field live 3",
        "field cascade 1",
    ]);
    f.asks(&["set codes 0 1f", "set scales 0 7f800001", "set keys 0 123456789abcdef", "set keyed 0 1", "set held 0 ffffffff"]);
    f.asks(&["set alive 0 80", "set years 0 7ea"]);
    f.told(
        "dump",
        "record ffffffffffffffff 0 ffffffffffffffff ff 1 2 3 1 codes 1f scales 7f800001 \
         keys 0123456789abcdef keyed 1 held ffffffff alive 0000000000000080 codes2 - scales2 - years 07ea",
    );
    f.told_all(&["contains 0", "compact", "enable", "bits 4"], "refused 13");
    f.ask("new 1 0");
    f.ask("dump");
}

/// What is set, and what it is set back to.
type Poke<'a> = (&'a str, &'a [&'a str], &'a [&'a str]);

fn misfits(f: &mut Fixed) {
    f.section("13, clause by clause: four slots in use, key 7 on 0 and 2, 1 dead, 3 unkeyed; each is set, calls are refused, and it is set back");
    let base = |f: &mut Fixed, making: &str| {
        f.lend(6, 3);
        f.asks(&[making, "bits 4"]);
        f.ask(format!("add_multi 7 {} 1", nth(4, 1)));
        f.ask(format!("add_keyed 8 {} 1 1", nth(4, 2)));
        f.ask(format!("add_multi 7 {} 1", nth(4, 3)));
        f.ask(format!("add {} 1", nth(4, 4)));
        f.asks(&["remove 8 7ea", "dump"]);
    };
    let run = |f: &mut Fixed, turn: usize, (what, set, back): &Poke| {
        f.label(what);
        f.asks(set);
        for line in some_calls(turn) {
            f.told(line, "refused 13");
        }
        f.asks(back);
        f.ask("dump");
    };
    base(f, "new 4 1");
    let cases: &[Poke] = &[
        ("dim 0", &["field dim 0"], &["field dim 4"]),
        ("dim 4,097", &["field dim 1001"], &["field dim 4"]),
        ("dim below working_dim", &["field dim 3"], &["field dim 4"]),
        ("working_dim 0", &["field working_dim 0"], &["field working_dim 4"]),
        ("working_dim over dim", &["field working_dim 5"], &["field working_dim 4"]),
        ("working_dim 2^64 - 1", &["field working_dim ffffffffffffffff"], &["field working_dim 4"]),
        ("width 3", &["field bits 3"], &["field bits 4"]),
        ("width 7", &["field bits 7"], &["field bits 4"]),
        ("width 0", &["field bits 0"], &["field bits 4"]),
        ("a residual record of width 5", &["field bits 5", "field residual 1"], &["field residual 0", "field bits 4"]),
        ("a residual record of width 6", &["field bits 6", "field residual 1"], &["field residual 0", "field bits 4"]),
        ("more slots in use than the arrays hold", &["field n 7"], &["field n 4"]),
        ("over 65,536 slots in use", &["field n 10001"], &["field n 4"]),
        ("2^64 - 1 slots in use", &["field n ffffffffffffffff"], &["field n 4"]),
        ("a bit at the slots in use", &["set alive 0 1d"], &["set alive 0 d"]),
        ("a bit above them", &["set alive 0 4d"], &["set alive 0 d"]),
        ("the last bit of the word", &["set alive 0 800000000000000d"], &["set alive 0 d"]),
        ("every bit", &["set alive 0 ffffffffffffffff"], &["set alive 0 d"]),
        ("a live count too high", &["field live 4"], &["field live 3"]),
        ("a live count too low", &["field live 2"], &["field live 3"]),
        ("a live count of 2^64 - 1", &["field live ffffffffffffffff"], &["field live 3"]),
        ("a live mark more", &["set alive 0 f"], &["set alive 0 d"]),
        ("a live mark less", &["set alive 0 5"], &["set alive 0 d"]),
        ("no live mark", &["set alive 0 0"], &["set alive 0 d"]),
        ("slots in use fewer than the live count says", &["field n 3"], &["field n 4"]),
        ("a key on a dead slot", &["set keyed 1 1"], &["set keyed 1 0"]),
        ("a key on a slot that died", &["set alive 0 c", "field live 2"], &["set alive 0 d", "field live 3"]),
        ("positions 0 and 0", &["set held 2 0"], &["set held 2 1"]),
        ("positions 0 and 2", &["set held 2 2"], &["set held 2 1"]),
        ("positions 1 and 1", &["set held 0 1"], &["set held 0 0"]),
        ("positions 1 and 2", &["set held 0 2"], &["set held 0 0"]),
        ("a position of 2^32 - 1", &["set held 2 ffffffff"], &["set held 2 1"]),
        ("a key alone, at position 1", &["set keys 2 9"], &["set keys 2 7"]),
        ("a key's second slot without the first", &["set keyed 0 0"], &["set keyed 0 1"]),
        ("an unkeyed slot with held 1", &["set held 3 1"], &["set held 3 0"]),
        ("a dead slot with held 1", &["set held 1 1"], &["set held 1 0"]),
        ("a third slot at position 0", &["set keys 3 7", "set keyed 3 1"], &["set keyed 3 0", "set keys 3 0"]),
    ];
    cases.iter().enumerate().for_each(|(turn, case)| run(f, turn, case));
    f.section("13, a residual record's clauses");
    base(f, "residual 4 1");
    let cases: &[Poke] = &[
        ("width 5", &["field bits 5"], &["field bits 4"]),
        ("width 6", &["field bits 6"], &["field bits 4"]),
        ("positions 0 and 0", &["set held 2 0"], &["set held 2 1"]),
    ];
    cases.iter().enumerate().for_each(|(turn, case)| run(f, turn, case));
}

// ---- live marks as bits (document 02, Req 02)

/// A dump whose words of live marks are stated.
fn dump_words(f: &mut Fixed, words: &[u64]) {
    let answer = f.either("dump");
    let stated: String = words.iter().map(|word| format!("{word:016x}")).collect();
    assert_eq!(answer.split(' ').nth(20), Some(stated.as_str()), "the words of live marks");
}

/// The words, of which so many are lent, where the first n slots are live.
fn first_marks(n: usize, words: usize) -> Vec<u64> {
    (0..words).map(|i| n.saturating_sub(64 * i)).map(|left| if left < 64 { (1 << left) - 1 } else { u64::MAX }).collect()
}

fn set_words(f: &mut Fixed, words: &[u64]) {
    for (i, word) in words.iter().enumerate() {
        f.ask(format!("set alive {i:x} {word:x}"));
    }
}

/// Each call of an index of two entries that is there.
fn all_calls() -> Vec<String> {
    let w = nth(2, 0);
    let mut lines: Vec<String> = [
        "bits 4", "bits 7", "relabel 7 9", "relabel 7 7", "remove 7 ffff", "remove_at 7 0 0", "key_of 0", "contains 7", "slot_at 7 0", "enable", "compact",
        "length", "write 1000",
    ]
    .map(str::to_string)
    .to_vec();
    lines.extend(["add", "add_keyed 7", "add_keyed 9", "add_multi 7"].map(|call| adding(call, &w)));
    lines.extend(["score 0", "search 1 1", "search_keyed 1 1", "search_cascade 1 1 1"].map(|call| format!("{call} {w}")));
    lines
}

fn stray_marks(f: &mut Fixed) {
    f.section("13: a bit at or above the slots in use, in any lent word (document 02, Req 02); nothing changes, and it is set back");
    let calls = all_calls();
    let mut turn = 0;
    for (n, words) in [(4, 3), (63, 1), (64, 3), (65, 2), (128, 3), (130, 4)] {
        f.label(&format!("{n} slots in use, {words} lent: key 7 on the first and the last, slot 1 dead"));
        f.lend_words(n + 1, 1, words);
        assert_eq!(read(f, &File::new(259, 2, 4, n, &[(0, 7), (n as u32 - 1, 7), (1, 8)]).bytes()), "ok");
        f.asks(&["enable", "remove 8 1"]);
        let mut marks = first_marks(n, words);
        marks[0] ^= 2;
        dump_words(f, &marks);
        // At n, above it, the last one of its word, the first one of the next, in the last word.
        let mut strays = vec![n, n + 1, n / 64 * 64 + 63, n / 64 * 64 + 64, 64 * words - 1];
        strays.retain(|&bit| n <= bit && bit < 64 * words);
        strays.dedup();
        for bit in strays {
            f.label(&format!("bit {bit}"));
            let mut stray = marks.clone();
            stray[bit / 64] |= 1 << (bit % 64);
            f.ask(format!("set alive {:x} {:x}", bit / 64, stray[bit / 64]));
            let some = if n == 64 && bit == 64 { calls.len() } else { 5 };
            for i in 0..some {
                f.told(calls[(turn + i) % calls.len()].clone(), "refused 13");
            }
            turn += some;
            if n < 64 || bit == n {
                dump_words(f, &stray);
            }
            f.label("it is not counted as live, and the count does not make up for it");
            f.ask(format!("field live {n:x}"));
            f.told("contains 7", "refused 13");
            f.ask(format!("field live {:x}", n - 1));
            f.ask(format!("set alive {:x} {:x}", bit / 64, marks[bit / 64]));
            f.ask("contains 7");
        }
        if 2 < n && n % 64 > 0 {
            f.label("the mark of an unkeyed slot moved to the bit at the slots in use");
            let last = n / 64;
            let unkeyed = if last > 0 && n % 64 > 1 { 1 << (n % 64 - 2) } else { 4 };
            let at = if unkeyed == 4 { 0 } else { last };
            f.ask(format!("set alive {at:x} {:x}", marks[at] ^ unkeyed));
            let base = if at == last { marks[last] ^ unkeyed } else { marks[last] };
            f.ask(format!("set alive {last:x} {:x}", base | 1 << (n % 64)));
            f.told("contains 7", "refused 13");
            f.told("compact", "refused 13");
            f.ask(format!("set alive {at:x} {:x}", marks[at]));
            f.ask(format!("set alive {last:x} {:x}", marks[last]));
        }
        dump_words(f, &marks);
    }
}

fn cleared_marks(f: &mut Fixed) {
    f.section("making and reading leave 0 in every bit at or above the slots in use, in all lent words; refused, they change nothing");
    let strays = [[u64::MAX, 1, 1 << 63, u64::MAX], [0x10, 0, 0, 0], [1 << 63, 0, 0, 0], [0, 1, 0, 0], [0, 0, 0, 1 << 63]];
    f.lend_words(2, 3, 4);
    f.ask("new 4 1");
    for making in ["new 4 1", "working 4 3 1", "residual 4 1"] {
        for words in &strays {
            f.label(&format!("{making}, over set bits"));
            set_words(f, words);
            f.told("contains 7", "refused 13");
            f.told("new 1001 1", "refused 4");
            f.told("working 4 5 1", "refused 4");
            dump_words(f, words);
            f.ask(making);
            dump_words(f, &[0; 4]);
        }
        f.ask(format!("add_keyed 7 {} 1 7ea", nth(4, 1)));
        f.ask(format!("add {} 1", nth(4, 2)));
        dump_words(f, &[3, 0, 0, 0]);
        f.label("making again, over live slots");
        f.ask(making);
        dump_words(f, &[0; 4]);
    }
    f.label("13 of making leaves them");
    f.ask("lend 3 0 1 1 1 2 0 0 1");
    set_words(f, &[u64::MAX, 1]);
    f.told_all(&["new 4 1", "working 4 3 1", "residual 4 1"], "refused 13");
    dump_words(f, &[u64::MAX, 1]);
    for count in [0, 1, 63, 64, 65] {
        f.label(&format!("a file of {count} slots, read over set bits"));
        let file = File::new(259, 2, 4, count, &[]).bytes();
        f.lend_words(count + 1, 1, 4);
        for words in if count < 63 { &strays[..] } else { &strays[..1] } {
            set_words(f, words);
            assert_eq!(read(f, &file[..file.len() - 1]), "refused 14");
            assert_eq!(read(f, &File::new(259, 2, 4, count + 2, &[]).bytes()), "refused 20");
            dump_words(f, words);
            assert_eq!(read(f, &file), "ok");
            dump_words(f, &first_marks(count, 4));
        }
    }
}

fn room_by_words(f: &mut Fixed) {
    f.section("room by words of live marks, 64 slots a word: 8, 13 and 20");
    let w = nth(2, 1);
    for (words, slots) in [(1, 64), (2, 128)] {
        let keys = [(0, 7), (3, 8), (slots as u32 - 1, 7)];
        f.label(&format!("20: {} slots, {words} words", slots + 1));
        f.lend_words(slots + 2, 1, words);
        assert_eq!(read(f, &File::new(259, 2, 4, slots + 1, &keys).bytes()), "refused 20");
        assert_eq!(read(f, &File::new(259, 2, 4, slots, &keys).bytes()), "ok");
        dump_words(f, &first_marks(slots, words));
        f.label("8, and what is no 8");
        for call in ["add", "add_keyed 9", "add_multi 7"] {
            f.told(adding(call, &w), "refused 8");
        }
        f.ask(format!("add_keyed 7 {w} 1 ffff"));
        f.ask("remove 8 0");
        f.told(format!("add {w} 1"), "refused 8");
        f.ask("compact");
        dump_words(f, &first_marks(slots - 1, words));
        f.ask(format!("add_keyed 9 {w} 1 1"));
        dump_words(f, &first_marks(slots, words));
        f.told(format!("add_multi 9 {w} 1"), "refused 8");
        f.label("one word more");
        f.lend_words(slots + 2, 1, words + 1);
        assert_eq!(read(f, &File::new(259, 2, 4, slots + 1, &keys).bytes()), "ok");
        f.ask(format!("add {w} 1"));
        f.told(format!("add {w} 1"), "refused 8");
        dump_words(f, &first_marks(slots + 2, words + 1));
    }
    f.label("appends up to the last bit of the only word");
    f.lend_words(65, 1, 1);
    assert_eq!(read(f, &File::new(259, 2, 4, 61, &[]).bytes()), "ok");
    for call in ["add", "add_keyed 9", "add_multi 9"] {
        f.ask(adding(call, &w));
    }
    dump_words(f, &[u64::MAX]);
    f.told(format!("add {w} 1"), "refused 8");
    f.label("13: fewer words than the slots in use need; dead slots, so that arrays lent anew fit if they are long enough");
    f.lend(1, 2);
    f.asks(&["new 2 1", "bits 4"]);
    for (n, words) in [(1, 1), (64, 1), (65, 2), (128, 2), (129, 3)] {
        f.ask(format!("field n {n:x}"));
        f.lend_words(n + 1, 1, words - 1);
        for line in all_calls().into_iter().skip(n % 7).step_by(5) {
            f.told(line, "refused 13");
        }
        f.lend_words(n + 1, 1, words);
        f.asks(&["contains 7", "key_of 0"]);
        dump_words(f, &vec![0; words]);
        f.ask("compact");
        f.ask(format!("add {w} 1"));
        dump_words(f, &first_marks(1, words));
        f.asks(&["new 2 1", "bits 4"]);
    }
    f.label("no word: 13 of making, 20 of a slot, and nothing against a file without slots");
    f.lend_words(1, 2, 0);
    f.told_all(&["new 2 1", "working 2 1 1", "residual 2 1"], "refused 13");
    assert_eq!(read(f, &File::new(259, 2, 4, 1, &[]).bytes()), "refused 20");
    assert_eq!(read(f, &File::new(259, 2, 4, 0, &[]).bytes()), "ok");
    f.told(format!("add {w} 1"), "refused 8");
    f.label("all words that the program holds");
    f.lend_words(3, 2, 64);
    short_history(f, 2, "new 2 5", 5, false);
    dump_words(f, &first_marks(3, 64));
}

fn word_borders(f: &mut Fixed) {
    f.section("slots 63, 64, 65, 127 and 128: adding, overwriting, relabelling, removals, questions, searches over three words");
    for (making, width) in [("new 2 1", 4), ("new 2 6", 6), ("residual 2 3", 4)] {
        let residual = making.starts_with("residual");
        f.lend_words(134, 2, 4);
        f.ask(making);
        f.ask(format!("bits {width:x}"));
        for slot in 0..131 {
            if making == "new 2 1" && [64, 65, 128].contains(&slot) {
                dump_words(f, &first_marks(slot, 4));
            }
            let w = nth(2, slot as u64 % 40);
            f.ask(if slot % 7 == 3 { format!("add {w} 1") } else { format!("add_multi {:x} {w} 1", slot % 11) });
        }
        f.label("a key of slots 131 and 132");
        f.ask(format!("add_keyed 63 {} 1 7ea", nth(2, 41)));
        f.ask(format!("add_multi 63 {} 1", nth(2, 42)));
        f.ask(format!("add_keyed 63 {} 1 ffff", nth(2, 43)));
        f.asks(&["relabel 63 3f", "relabel 3f 9", "slot_at 3f 0", "slot_at 3f 1", "contains 63", "key_of 83"]);
        f.label("single removals at the borders");
        for slot in [63, 64, 65, 127, 128] {
            f.ask(format!("remove_at {:x} {slot:x} 0", slot % 11));
            f.ask(format!("remove_at {:x} {slot:x} 1", slot % 11));
            f.ask(format!("key_of {slot:x}"));
        }
        // 133 slots: 128 to 132 are the lowest five bits of the third word.
        dump_words(f, &[!(1 << 63), !(1 << 63 | 3), 0x1e, 0]);
        f.label("a dead slot is scored");
        let query = nth(2, 50);
        for slot in ["3f", "40", "41", "42", "7f", "80", "84"] {
            f.ask(format!("score {slot} {query}"));
        }
        f.told(format!("score 85 {query}"), "refused 9");
        let searches = |f: &mut Fixed| {
            for k in ["3", "c8"] {
                f.either(format!("search {k} c8 {query}"));
                f.either(format!("search_keyed {k} c8 {query}"));
            }
            if width == 4 {
                f.ask("enable");
                for (k, r) in [("1", "1"), ("5", "40"), ("c8", "41"), ("c8", "c8")] {
                    f.either(format!("search_cascade {k} {r} c8 {query}"));
                }
            }
        };
        searches(f);
        f.label("a whole key, in every word; then the file");
        f.asks(&["slot_at 4 0", "slot_at 4 5", "remove 4 7ea", "contains 4", "length", "write 1000"]);
        let fours: Vec<usize> = (0..131).filter(|slot| slot % 7 != 3 && slot % 11 == 4).collect();
        let mut marks = vec![!(1 << 63), !(1 << 63 | 3), 0x1e, 0];
        fours.iter().for_each(|slot| marks[slot / 64] &= !(1 << (slot % 64)));
        if !residual {
            dump_words(f, &marks);
        }
        searches(f);
        f.label("compaction");
        let left = 133 - 5 - fours.iter().filter(|slot| ![63, 64, 65, 127, 128].contains(slot)).count();
        assert_eq!(f.either("compact"), "ok");
        dump_words(f, &first_marks(left, 4));
        searches(f);
        f.ask(format!("add_keyed 4 {} 1 ffff", nth(2, 44)));
        dump_words(f, &first_marks(left + 1, 4));
    }
}

fn compacted_words(f: &mut Fixed) {
    f.section("compaction of 130 slots leaves 0 in every bit above those that are left");
    for left in [0, 1, 63, 64, 65, 127, 128, 130] {
        // 37 and 130 have no divisor in common, so that so many slots, from every word, are left.
        let stays = |slot: usize| slot * 37 % 130 < left;
        let keys: Vec<(u32, u64)> = (0..130).filter(|&slot| !stays(slot) || slot % 3 == 0).map(|slot| (slot as u32, if stays(slot) { 6 } else { 5 })).collect();
        f.lend_words(130, 1, 3);
        assert_eq!(read(f, &File::new(259, 2, 4, 130, &keys).bytes()), "ok");
        f.ask("remove 5 0");
        let mut marks = vec![0; 3];
        (0..130).filter(|&slot| stays(slot)).for_each(|slot| marks[slot / 64] |= 1 << (slot % 64));
        if left == 64 {
            dump_words(f, &marks);
        }
        f.ask("length");
        f.ask(format!("search 5 5 {}", nth(2, 9)));
        f.ask("compact");
        dump_words(f, &first_marks(left, 3));
        f.asks(&["contains 5", "slot_at 6 0", "slot_at 6 1"]);
        f.ask(format!("search 5 5 {}", nth(2, 9)));
    }
}

fn marks_by_hand(f: &mut Fixed) {
    f.section("live marks set by hand over three words: searches, cascades, files, compaction");
    f.lend_words(130, 1, 3);
    let query = nth(2, 3);
    for words in [[u64::MAX / 3, u64::MAX / 3 * 2, 1], [1 << 63, 1, 2], [0, 0, 3], [0, u64::MAX, 0], [1, 0, 0], [0; 3]] {
        assert_eq!(read(f, &File::new(259, 2, 4, 130, &[]).bytes()), "ok");
        set_words(f, &words);
        let live: u32 = words.iter().map(|word| word.count_ones()).sum();
        if live < 130 {
            f.label("a wrong live count: 13");
            f.told("contains 7", "refused 13");
            for wrong in [live + 1, live.wrapping_sub(1), 130] {
                f.ask(format!("field live {wrong:x}"));
                f.told_all(&["key_of 40", "length"], "refused 13");
            }
        }
        f.label("the right one");
        f.ask(format!("field live {live:x}"));
        f.asks(&["contains 7", "enable"]);
        f.ask(format!("search c8 c8 {query}"));
        f.ask(format!("search 3 3 {query}"));
        f.ask(format!("search_keyed 3 3 {query}"));
        for (k, r) in [("3", "14"), ("c8", "c8"), ("0", "0")] {
            f.ask(format!("search_cascade {k} {r} c8 {query}"));
        }
        f.asks(&["length", "write 1000"]);
        dump_words(f, &words);
        f.label("a key on a dead slot: 13");
        let dead = (0..130).find(|slot| words[slot / 64] >> (slot % 64) & 1 == 0 && *slot >= 64).expect("one is dead");
        f.ask(format!("set keyed {dead:x} 1"));
        f.told_all(&["contains 7", "compact"], "refused 13");
        f.ask(format!("set keyed {dead:x} 0"));
        f.ask("compact");
        dump_words(f, &first_marks(live as usize, 3));
    }
}

fn no_misfits(f: &mut Fixed) {
    f.section("what is no misfit");
    f.lend(5, 3);
    f.asks(&["new 4 1", "bits 4"]);
    f.ask(format!("add_multi 7 {} 1", nth(4, 1)));
    f.ask(format!("add_keyed 8 {} 1 1", nth(4, 2)));
    f.ask(format!("add_multi 7 {} 1", nth(4, 3)));
    f.ask(format!("add {} 1", nth(4, 4)));
    f.label("keys and positions past the slots in use");
    f.asks(&["set keyed 4 1", "set keys 4 7", "set held 4 9", "contains 7", "slot_at 7 2", "key_of 4", "remove_at 7 4 7ea", "dump"]);
    f.ask(format!("add {} 1", nth(4, 5)));
    f.ask("dump");
    f.label("the word of an unkeyed or a dead slot");
    f.asks(&["remove 8 ffff", "set keys 1 7", "set keys 3 7", "contains 7", "key_of 1", "key_of 3", "slot_at 7 2", "dump"]);
    f.asks(&["relabel 7 9", "dump", "relabel 9 7"]);
    f.label("positions 1 and 0: the held order is slot 2, then 0");
    f.asks(&["set held 0 1", "set held 2 0", "slot_at 7 0", "slot_at 7 1"]);
    f.ask(format!("add_keyed 7 {} 1 0", nth(4, 6)));
    f.asks(&["dump", "compact", "dump"]);
    f.label("the same with nothing dead: document 01, compact restores rising order");
    f.asks(&["set held 0 1", "set held 1 0", "slot_at 7 0"]);
    f.told("compact", "ok");
    f.asks(&["slot_at 7 0", "dump"]);
    f.label("a key split in two");
    f.asks(&["set held 1 0", "set keys 1 9", "slot_at 9 0", "slot_at 7 0", "relabel 9 7", "dump"]);
    f.label("the cascade set at 5 bits");
    f.asks(&["new 4 1", "field cascade 1", "contains 7", "dump"]);
    f.told("enable", "refused 11");
    f.told("bits 6", "ok");
    f.asks(&["dump", "field cascade 1"]);
    f.ask(format!("add {} 1", nth(4, 1)));
    f.ask("dump");
    f.label("any seed");
    f.asks(&["new 4 1", "field seed 0"]);
    f.ask(format!("add {} 1", nth(4, 1)));
    f.ask("dump");
    f.label("residual set on a record of 4 bits, with arrays for it; working_dim below dim then");
    f.asks(&["new 4 1", "bits 4", "field residual 1", "field working_dim 3"]);
    f.ask(format!("add_keyed 7 {} 1 1", nth(4, 1)));
    f.ask(format!("add_keyed 7 {} 1 7ea", nth(4, 2)));
    f.told("bits 5", "refused 6");
    f.ask("dump");
    f.label("arrays lent anew under an empty index keep the record");
    f.ask("new 4 7");
    f.lend(1, 3);
    f.ask("dump");
    f.ask(format!("add_multi 7 {} 1", nth(4, 1)));
    f.told(format!("add_multi 7 {} 1", nth(4, 2)), "refused 8");
    f.ask("dump");
}

// ---- histories

/// Random calls, of which those outside the comparison are left out.
fn histories(f: &mut Fixed) {
    f.section("random calls inside the comparison, few keys");
    for (number, making) in ["new 5 3", "working 9 6 4", "residual 3 5", "residual 8 6", "new 10 0"].iter().enumerate() {
        let mut random = Random::new(40 + number as u64);
        f.lend(6, 20);
        f.ask(*making);
        if number == 4 {
            f.ask("bits 6");
        }
        let mut lines = 0;
        while lines < 50 {
            let dim = f.driver.record.dim;
            let w = nth(dim, random.below(9));
            let (key, other) = (random.below(3), random.below(4));
            let slot = random.below(7);
            let line = match random.below(14) {
                0 => format!("add {w} 1"),
                1 | 2 => format!("add_keyed {key:x} {w} 1 ffff"),
                3..=5 => format!("add_multi {key:x} {w} 1"),
                6 => format!("relabel {key:x} {other:x}"),
                7 => format!("remove {key:x} 0"),
                8 | 9 => format!("remove_at {key:x} {slot:x} 1"),
                10 => format!("slot_at {key:x} {:x}", random.below(3)),
                11 => format!("key_of {slot:x}"),
                12 => "compact".to_string(),
                _ => "dump".to_string(),
            };
            if let Answer::Rust(_) = f.driver.clone().answer(line.as_bytes()) {
                f.ask(line);
                lines += 1;
            }
        }
        f.ask("dump");
    }
}

// ---- twins: one history with other compactions (document 01, "Histories")

/// A call of a history. One about a slot names its arrival.
enum Call {
    Plain(String),
    KeyOf(usize),
    Score(usize, String),
}

/// The arrival of each slot in use, and the next one.
#[derive(Default)]
struct Twin {
    arrivals: Vec<usize>,
    next: usize,
}

impl Twin {
    fn is_live(f: &Fixed, slot: usize) -> bool {
        f.driver.arrays.mark(slot)
    }

    fn live(&self, f: &Fixed) -> Vec<usize> {
        (0..self.arrivals.len()).filter(|&slot| Self::is_live(f, slot)).map(|slot| self.arrivals[slot]).collect()
    }

    fn slot(&self, arrival: usize) -> usize {
        self.arrivals.iter().position(|&a| a == arrival).expect("a live arrival has a slot")
    }

    fn compact(&mut self, f: &mut Fixed) {
        let live = self.live(f);
        assert_eq!(f.either("compact"), "ok");
        self.arrivals = live;
    }

    /// The answer to a call, slots read by arrival.
    fn call(&mut self, f: &mut Fixed, call: &Call) -> String {
        let line = match call {
            Call::Plain(line) => line.clone(),
            Call::KeyOf(arrival) => format!("key_of {:x}", self.slot(*arrival)),
            Call::Score(arrival, query) => format!("score {:x} {query}", self.slot(*arrival)),
        };
        let answer = f.either(line.clone());
        if line.starts_with("add") && answer == format!("slot {:x}", self.arrivals.len()) {
            self.arrivals.push(self.next);
            self.next += 1;
        }
        let arrival = |slot: &str| self.arrivals[usize::from_str_radix(slot, 16).expect("a slot")];
        if let Some(slot) = answer.strip_prefix("slot ") {
            return format!("arrival {}", arrival(slot));
        }
        match answer.strip_prefix("list ") {
            Some(hits) if line.starts_with("search ") => {
                hits.split(' ').map(|hit| hit.split_once(':').expect("a hit")).map(|(slot, score)| format!("{}:{score} ", arrival(slot))).collect()
            }
            _ => answer,
        }
    }
}

/// The years that slots of a history are given, and the present years that its calls are told.
struct Ages {
    years: &'static [u16],
    presents: &'static [u16],
}

fn pick(from: &[u16], random: &mut Random) -> u16 {
    from[random.below(from.len() as u64) as usize]
}

fn some_call(f: &Fixed, twin: &Twin, ages: &Ages, random: &mut Random) -> Call {
    let (year, present) = (pick(ages.years, random), pick(ages.presents, random));
    let (w, query) = (nth(f.driver.record.dim, random.below(9)), nth(f.driver.record.dim, random.below(9)));
    let (key, other, k) = (random.below(4), random.below(5), random.below(6));
    let live = twin.live(f);
    let named = live.get(random.below(live.len().max(1) as u64) as usize).copied();
    match (random.below(14), named) {
        (0 | 1, Some(arrival)) => Call::KeyOf(arrival),
        (2, Some(arrival)) => Call::Score(arrival, query),
        (3, _) => Call::Plain(format!("add {w} {year:x}")),
        (4 | 5, _) => Call::Plain(format!("add_keyed {key:x} {w} {year:x} {present:x}")),
        (6 | 7, _) => Call::Plain(format!("add_multi {key:x} {w} {year:x}")),
        (8, _) => Call::Plain(format!("relabel {key:x} {other:x}")),
        (9, _) => Call::Plain(format!("remove {key:x} {present:x}")),
        (10, _) => Call::Plain(format!("search {k:x} 20 {query}")),
        (11, _) => Call::Plain(format!("search_keyed {k:x} 20 {query}")),
        (12, _) => Call::Plain(format!("slot_at {key:x} {:x}", random.below(3))),
        (13, _) => Call::Plain("write 400".to_string()),
        _ => Call::Plain("length".to_string()),
    }
}

fn twins(f: &mut Fixed) {
    f.section("twins: a history without compactions, and twice the same list with some; answers equal by arrival");
    for (number, making) in ["new 5 3", "working 9 6 4", "residual 3 5", "new 2 0", "residual 1 2"].iter().enumerate() {
        twin_histories(f, making, if number == 3 { "6" } else { "" }, &Ages { years: &[1], presents: &[0, 1, 0x7ea, 0xffff] }, 90 + number as u64);
    }
    f.section("twins with retention years (document 02, Req 06), which travel with their slots and into equal files");
    let ages = Ages { years: &[0, 1, 1, 1, 2, 0x7ea, 0x7eb, 0xffff], presents: &[0, 1, 0x7e9, 0x7ea, 0x7eb, 0xffff] };
    for (number, (making, width)) in [("new 5 3", ""), ("new 5 3", "4"), ("residual 3 5", ""), ("working 9 6 4", "6")].iter().enumerate() {
        twin_histories(f, making, width, &ages, 95 + number as u64);
    }
}

fn twin_histories(f: &mut Fixed, making: &str, width: &str, ages: &Ages, seed: u64) {
    let mut random = Random::new(seed);
    let start = |f: &mut Fixed| {
        f.lend(32, 8);
        f.ask(making);
        if !width.is_empty() {
            f.ask(format!("bits {width}"));
        }
        Twin::default()
    };
    let mut twin = start(f);
    let (mut calls, mut answers) = (Vec::new(), Vec::new());
    for _ in 0..60 {
        let call = some_call(f, &twin, ages, &mut random);
        answers.push(twin.call(f, &call));
        calls.push(call);
    }
    for often in [3, 9] {
        f.label(&format!("with compactions, one in {often}"));
        let mut twin = start(f);
        for (call, answer) in calls.iter().zip(&answers) {
            if random.below(often) == 0 {
                twin.compact(f);
            }
            assert_eq!(&twin.call(f, call), answer, "the answers part");
        }
    }
}

// ---- the language

fn unreadable(f: &mut Fixed) {
    f.section("lines that can't be read change nothing");
    f.lend(2, 3);
    f.ask("new 4 1");
    let w = nth(4, 1);
    f.ask(format!("add_keyed 7 {w} 1 0"));
    f.told_all(
        &[
            "foo", "Add 3f800000 1", "add", "add ", "add  - 1", " dump", "dump ", "dump 0", "dump\t", "compact 1", "enable 1", "bits", "bits 4 4",
            "bits 04", "bits 100", "bits -", "bits 4\r", "new", "new 4", "new 4 1 1", "new 04 1", "new 4 01", "new g 1", "new 4 G",
            "new 10000000000000000 1", "new 4 10000000000000000", "working 4 4", "working 4 4 1 1", "residual 4", "residual 4 1 1", "contains",
            "contains 7 7", "contains A", "contains 0x7", "contains +7", "contains -7", "contains 00", "contains  7", "contains 7 ",
            "contains 10000000000000000", "contains 00000000000000007", "key_of", "key_of 0 0", "slot_at 7", "slot_at 7 0 0", "relabel 7",
            "relabel 7 8 9", "relabel 7  8", "remove", "remove 7", "remove 7 0 0", "remove_at 7", "remove_at 7 0", "remove_at 7 0 0 0", "add_keyed 7",
            "add_multi 7", "add_keyed - 3f800000 1 0", "add 3f80000 1", "add 3f8000000 1", "add 3F800000 1", "add 3f800000 3f800000",
            "add 3f800000 3f800000 1", "add 3f800000- 1", "add -3f80000 1", "add -- 1", "add 3f80000g 1", "add_keyed 7 7 3f800000 1 0", "lend",
            "lend 1 1 1 1 1 1 1 1", "lend 1 1 1 1 1 1 1 1 1 1", "lend 100001 1 1 1 1 1 1 1 1", "lend 1 1001 1 1 1 1 1 1 1",
            "lend 1 1 1001 1 1 1 1 1 1", "lend 1 1 1 1001 1 1 1 1 1", "lend 1 1 1 1 1001 1 1 1 1", "lend 1 1 1 1 1 41 1 1 1",
            "lend 1 1 1 1 1 1 100001 1 1", "lend 1 1 1 1 1 1 1 1001 1", "lend 1 1 1 1 1 1 1 1 1001", "lend - 1 1 1 1 1 1 1 1",
            "lend 01 1 1 1 1 1 1 1 1", "set", "set codes 0", "set codes 0 0 0", "set code 0 0", "set codes 6 0", "set scales 2 0", "set keys 2 0",
            "set keyed 2 0", "set held 2 0", "set alive 1 0", "set codes2 6 0", "set scales2 2 0", "set codes ffffffffffffffff 0", "set codes 0 100",
            "set scales 0 100000000", "set keys 0 10000000000000000", "set keyed 0 2", "set held 0 100000000", "set alive 0 10000000000000000",
            "set codes2 0 100", "set scales2 0 100000000", "set years 2 0", "set years 0 10000", "set years 0 -", "set year 0 1", "set codes 0 -",
            "field", "field dim", "field dim 4 4", "field width 4", "field dim 10000000000000000", "field working_dim 04",
            "field seed 10000000000000000", "field bits 100", "field residual 2", "field n -1", "field live 10000000000000000", "field cascade 2",
            "field Dim 4", "field year 1",
        ],
        "?",
    );
    f.label("years: none, one that no u16 is, a leading zero, no number, one too many");
    for (call, rest) in [("add", ""), ("add_keyed 7", " 0"), ("add_multi 7", "")] {
        for year in ["", " 10000", " 01", " 0001", " -", " g", " FFFF", " ", " 1 0 0"] {
            f.told(format!("{call} {w}{year}{rest}"), "?");
        }
    }
    for call in [&format!("add_keyed 7 {w} 1"), "remove 7", "remove_at 7 0"] {
        for present in ["", " 10000", " 01", " 07ea", " -", " g", " FFFF", " ", " 0 0"] {
            f.told(format!("{call}{present}"), "?");
        }
    }
    f.label("nothing changed");
    f.ask("dump");
    f.label("the largest that each takes");
    f.asks(&[
        "set codes 5 ff", "set scales 1 ffffffff", "set keys 1 ffffffffffffffff", "set keyed 1 1", "set held 1 ffffffff",
        "set codes2 5 ff", "set scales2 1 ffffffff", "set years 1 ffff",
    ]);
    f.asks(&["dump", "contains ffffffffffffffff", "set alive 0 ffffffffffffffff"]);
    dump_words(f, &[u64::MAX]);
    f.told("contains 7", "refused 13");
    f.ask("set alive 0 1");
    f.label("the longest line that is read, and one byte more");
    let longest = v(&vec![1.0; 17_498]);
    f.told(format!("add_keyed 1 {longest} 1 0"), "refused 1");
    f.told(format!("add_keyed 12 {longest} 1 0"), "?");
    f.label("all that the program holds");
    f.asks(&["lend 100000 1000 1000 1000 1000 40 100000 1000 1000", "set alive 3f ffffffffffffffff", "set years fff ffff", "new 1000 1"]);
    f.ask("lend 0 0 0 0 0 0 0 0 0");
    f.ask("dump");
    f.label("empty lines and comments");
    f.told("", "");
    f.told("", "");
    f.told("#", "");
    f.told("#dump", "");
    f.told("# caf\u{e9}", "");
    f.label("the last line, without its newline");
    f.ask("contains 7");
}
