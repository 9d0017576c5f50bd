//! Compares two files of answers to one script: those of the program `exercise` and those of the driver.
use crate::model::block_size;
use std::collections::BTreeMap;
use std::fs::File;
use std::io::{BufRead, BufReader};
use std::path::Path;

/// So many differences are shown.
const SHOWN: usize = 10;
/// So much of a line is shown.
const WIDTH: usize = 300;

type Counts = BTreeMap<String, usize>;

#[derive(Default)]
struct Table {
    compared: Counts,
    compared_refusals: BTreeMap<u32, usize>,
    language: Counts,
    left_out: Counts,
    left_out_refusals: BTreeMap<u32, usize>,
    differences: Counts,
    shown: Vec<String>,
}

fn bump<K: Ord>(counts: &mut BTreeMap<K, usize>, row: K) {
    *counts.entry(row).or_insert(0) += 1;
}

fn refusal(answer: &str) -> Option<u32> {
    answer.strip_prefix("refused ")?.parse().ok()
}

/// What parts two answers, if anything does.
enum Verdict {
    Same,
    /// "lists as sets of slot and score .. then order between unequal scores", states over the slots in use: there the Rust says otherwise.
    Differs,
    /// Equal so far, but equal scores don't stand by rising slot (ours).
    EqualScores,
    /// Equal over the slots in use, but other places, or words of `keys` that mean nothing, are not what document 01 leaves there.
    OtherPlaces,
}

fn judged(ours: &str, theirs: &str) -> Verdict {
    if ours == theirs {
        return Verdict::Same;
    }
    if let (Some(a), Some(b)) = (list(ours), list(theirs)) {
        return if same_list(&a, &b) { Verdict::EqualScores } else { Verdict::Differs };
    }
    if let (Some(a), Some(b)) = (in_use(ours), in_use(theirs)) {
        return if a == b { Verdict::OtherPlaces } else { Verdict::Differs };
    }
    Verdict::Differs
}

/// The hits of a list: slot or key, and the score's pattern.
fn list(answer: &str) -> Option<Vec<(u64, u32)>> {
    let mut fields = answer.split(' ');
    if fields.next() != Some("list") {
        return None;
    }
    fields
        .map(|hit| {
            let (name, score) = hit.split_once(':')?;
            Some((u64::from_str_radix(name, 16).ok()?, u32::from_str_radix(score, 16).ok()?))
        })
        .collect()
}

/// Equal as sets, and falling wherever scores are unequal.
fn same_list(ours: &[(u64, u32)], theirs: &[(u64, u32)]) -> bool {
    let set = |hits: &[(u64, u32)]| {
        let mut set = hits.to_vec();
        set.sort_unstable();
        set
    };
    let falls = ours.windows(2).all(|pair| f32::from_bits(pair[0].1) >= f32::from_bits(pair[1].1));
    falls && set(ours) == set(theirs)
}

/// The live marks of the slots below n, one digit each, of the words that a dump has: 16 digits are 64 marks.
fn marks(words: &str, n: usize) -> Option<String> {
    let mark = |slot: usize| {
        let word = words.get(slot / 64 * 16..slot / 64 * 16 + 16)?;
        Some(if u64::from_str_radix(word, 16).ok()? >> (slot % 64) & 1 == 1 { '1' } else { '0' })
    };
    (0..n).map(mark).collect()
}

/// A dump cut down to the record and the slots in use, without the word of `keys` where there is no key.
fn in_use(answer: &str) -> Option<Vec<String>> {
    let fields: Vec<&str> = answer.split(' ').collect();
    if fields.len() != 27 || fields[0] != "record" {
        return None;
    }
    let number = |at: usize| usize::from_str_radix(fields[at], 16).ok();
    let (working, bits, residual, n) = (number(2)?, number(4)?, fields[5] == "1", number(6)?);
    if working > 4096 || bits > 8 {
        return Some(fields.iter().map(|f| f.to_string()).collect());
    }
    let digits = 2 * block_size(working, bits as u8);
    let part = |at: usize, each: usize| fields[at].get(..n.checked_mul(each)?);
    let keyed = part(16, 1)?;
    let keys: String = (0..n).filter(|&slot| &keyed[slot..slot + 1] == "1").filter_map(|slot| fields[14].get(16 * slot..16 * slot + 16)).collect();
    let mut parts: Vec<&str> = fields[..9].to_vec();
    let marks = marks(fields[20], n)?;
    parts.extend([part(10, digits)?, part(12, 8)?, &keys, keyed, part(18, 8)?, &marks, part(26, 4)?]);
    if residual {
        parts.extend([part(22, digits)?, part(24, 8)?]);
    }
    Some(parts.into_iter().map(str::to_string).collect())
}

impl Table {
    fn line(&mut self, at: usize, asked: &str, ours: &str, told: &str) {
        let word = match asked.split(' ').next().unwrap_or("") {
            "" => "(empty)".to_string(),
            word if word.starts_with('#') => "(comment)".to_string(),
            word => word.to_string(),
        };
        if let Some((reason, answer)) = told.strip_prefix("~ ").and_then(|rest| rest.split_once(": ")) {
            bump(&mut self.left_out, reason.to_string());
            if let Some(number) = refusal(answer) {
                bump(&mut self.left_out_refusals, number);
            }
            if ours != answer {
                self.differ("left out of the comparison, and not the documents' answer", at, asked, ours, told);
            }
            return;
        }
        if told == "?" {
            bump(&mut self.language, "(can't be read)".to_string());
        } else if matches!(word.as_str(), "(empty)" | "(comment)" | "lend" | "set" | "field") {
            bump(&mut self.language, word);
        } else {
            bump(&mut self.compared, word);
            if let Some(number) = refusal(told) {
                bump(&mut self.compared_refusals, number);
            }
        }
        match judged(ours, told) {
            Verdict::Same => (),
            Verdict::Differs => self.differ("not the Rust's answer", at, asked, ours, told),
            Verdict::EqualScores => self.differ("equal scores not by rising slot", at, asked, ours, told),
            Verdict::OtherPlaces => self.differ("places past the slots in use, or words without a key", at, asked, ours, told),
        }
    }

    fn differ(&mut self, kind: &str, at: usize, asked: &str, ours: &str, told: &str) {
        bump(&mut self.differences, kind.to_string());
        if self.shown.len() < SHOWN {
            let cut = |text: &str| match text.char_indices().nth(WIDTH) {
                Some((end, _)) => format!("{}..", &text[..end]),
                None => text.to_string(),
            };
            self.shown.push(format!("line {at}: {kind}\n  asked   {}\n  ours    {}\n  oracle  {}", cut(asked), cut(ours), cut(told)));
        }
    }

    fn print(&self, lines: usize) {
        let total = |counts: &Counts| counts.values().sum::<usize>();
        let rows = |title: &str, counts: &Counts| {
            println!("{:9}  {title}", total(counts));
            for (row, count) in counts {
                println!("  {count:9}  {row}");
            }
        };
        let refusals = |title: &str, counts: &BTreeMap<u32, usize>| {
            let text: Vec<String> = counts.iter().map(|(number, count)| format!("{number}: {count}")).collect();
            println!("             {title}: {}", if text.is_empty() { "none".to_string() } else { text.join(", ") });
        };
        println!("{lines:9}  lines");
        rows("compared with the Rust", &self.compared);
        refusals("refused, of these", &self.compared_refusals);
        rows("left out of the comparison, and held to the documents' answer", &self.left_out);
        refusals("refused, of these", &self.left_out_refusals);
        rows("without a call, held to the language", &self.language);
        rows("differences", &self.differences);
        for text in &self.shown {
            println!("{text}");
        }
    }
}

/// The lines of a file, as text: a byte that is none becomes a mark.
fn lines(path: &str) -> impl Iterator<Item = String> {
    let file = BufReader::new(File::open(Path::new(path)).unwrap_or_else(|e| panic!("{path}: {e}")));
    file.split(b'\n').map(|line| String::from_utf8_lossy(&line.expect("a line is read")).into_owned())
}

/// Whether there is no difference.
pub fn compare(script: &str, ours: &str, told: &str) -> bool {
    let mut table = Table::default();
    let (mut ours, mut told) = (lines(ours), lines(told));
    let mut count = 0;
    for asked in lines(script) {
        count += 1;
        let told = told.next().expect("the oracle answers every line");
        let ours = ours.next().unwrap_or_else(|| "(no answer)".to_string());
        table.line(count, &asked, &ours, &told);
    }
    assert!(told.next().is_none(), "the oracle answers no line twice");
    let extra = ours.count();
    if extra > 0 {
        table.differences.insert("answers past the last line".to_string(), extra);
    }
    table.print(count);
    table.differences.is_empty()
}
