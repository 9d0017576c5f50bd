//! What share of a search refusal 13 and the choice of slots have.
use crate::clock::Times;
use crate::data::{Keys, Width};
use crate::look::Look;
use crate::table::{count, ms, percent, ratio, Table};

/// The kinds of keys that 13 is measured under: also one key held in no order, which is the longest way.
pub const KINDS: [Keys; 5] = [Keys::None, Keys::Rising, Keys::Random, Keys::One, Keys::Shuffled];

/// About what the choice takes in a search over `n` slots: the time of a search over slots of which ten are live, less 13, and less a search over ten slots,
/// which prepares the same query and scores as many. What is left is the choice from `n` order numbers and the walk past the dead.
/// Where a kernel scores dead slots as well this is far too much; then a search over slots of two entries, less 13, is nearer, and the lower of both counts.
pub fn choice_at_most(n: usize, k: usize) -> f64 {
    let few_live = Look::sparse(1024, Width::Four, n, 10);
    let ten = Look::new(1024, Width::Four, 10, 0.0);
    let short = Look::new(2, Width::Four, n, 0.0);
    let whole = |look: &Look| look.search(k, &[Keys::None]).ours[0].min;
    let beside_13 = |look: &Look| whole(look) - look.refusal_13(&[Keys::None])[0].min;
    (beside_13(&few_live) - whole(&ten)).min(beside_13(&short))
}

pub struct Parts {
    pub search: Times,
    pub refusal_13: Vec<Times>,
    pub choice: f64,
}

/// At 4 bits and 1,024 entries.
pub fn parts(n: usize, k: usize) -> Parts {
    let look = Look::new(1024, Width::Four, n, 0.0);
    let (search, refusal_13) = look.beside_13(k, &KINDS);
    Parts { search, refusal_13, choice: choice_at_most(n, k) }
}

pub fn print() {
    println!("Parts of a 4-bit search over slots of 1,024 entries, ms (minima) and shares of the search. The choice is an estimate from above.\n");
    let mut heads = vec!["slots".to_string(), "k".to_string(), "search".to_string(), "choice".to_string(), "share".to_string()];
    for kind in KINDS {
        heads.push(format!("13, {}", kind.name()));
        heads.push("share".to_string());
    }
    let heads: Vec<&str> = heads.iter().map(String::as_str).collect();
    let mut table = Table::new(&heads);
    for n in [1024, 8192, 65_536] {
        for k in [10, 1000] {
            let p = parts(n, k);
            let whole = p.search.min;
            let mut cells = vec![count(n), count(k), ms(whole), ms(p.choice), percent(p.choice / whole)];
            for t in &p.refusal_13 {
                cells.push(ms(t.min));
                cells.push(percent(t.min / whole));
            }
            table.row(cells);
        }
    }
    table.print();
    let look = Look::new(1024, Width::Four, 65_536, 0.0);
    let mut table = Table::new(&["k of 65,536", "ours", "Rust, scalar", "× scalar"]);
    for k in [1, 10, 100, 1000, 10_000, 65_536] {
        let t = look.search(k, &[Keys::None]);
        table.row(vec![count(k), ms(t.ours[0].min), ms(t.scalar.min), ratio(t.scalar.min / t.ours[0].min)]);
    }
    table.print();
}
