//! The goals, each with what was measured.
use crate::change;
use crate::clock::Ratio;
use crate::data::{Keys, Width, KEYS, WIDTHS};
use crate::look::{Look, Three};
use crate::parts;
use crate::table::{percent, ratio, Table};

const SLOTS: usize = 65_536;
const DIM: usize = 1024;

/// A goal as a ratio that is to be reached, or as a share that is not to be passed.
enum Goal {
    AtLeast(f64),
    Below(f64),
}

struct Goals {
    table: Table,
}

impl Goals {
    fn row(&mut self, what: &str, goal: Goal, measured: Ratio) {
        let (wanted, met, show): (String, bool, fn(f64) -> String) = match goal {
            Goal::AtLeast(x) => (format!("at least {x}"), measured.min >= x, ratio),
            Goal::Below(x) => (format!("below {}%", x * 100.0), measured.min < x, percent),
        };
        let met = if met { "yes" } else { "no" };
        self.table.row(vec![what.to_string(), wanted, show(measured.min), show(measured.median), show(measured.by_round), met.to_string()]);
    }

    fn faster(&mut self, what: &str, goal: f64, t: &Three) {
        self.row(what, Goal::AtLeast(goal), t.scalar.over(&t.ours));
    }
}

/// The one of these that is furthest behind the Rust, by the minima.
fn slowest(list: Vec<(String, Three)>) -> (String, Three) {
    let behind = |t: &Three| t.ours.min / t.scalar.min;
    list.into_iter().max_by(|a, b| behind(&a.1).total_cmp(&behind(&b.1))).expect("one at least")
}

fn searches(goals: &mut Goals) {
    for (width, goal) in [(Width::Four, 3.0), (Width::Five, 7.0), (Width::Six, 6.5)] {
        let look = Look::new(DIM, width, SLOTS, 0.0);
        let t = look.search(10, &[Keys::None]);
        let t = Three { ours: t.ours[0], scalar: t.scalar, published: t.published };
        goals.faster(&format!("search, {} bits: times the Rust's scalar path", width.name()), goal, &t);
        if width == Width::Four {
            goals.row("search, 4 bits: times the Rust's AVX2", Goal::AtLeast(1.2), t.published.over(&t.ours));
            let (cascade, full) = look.cascade(10, 200);
            goals.row("cascade, r = 200: times our own search", Goal::AtLeast(3.0), full.over(&cascade.ours));
        }
    }
}

fn shares(goals: &mut Goals) {
    let p = parts::parts(SLOTS, 10);
    goals.row("choice: share of a 4-bit search", Goal::Below(0.01), Ratio { min: p.choice / p.search.min, median: p.choice / p.search.median, by_round: p.choice / p.search.median });
    let shares: Vec<(Keys, Ratio)> = parts::KINDS.iter().zip(&p.refusal_13).map(|(&kind, t)| (kind, t.over(&p.search))).collect();
    let (kind, longest) = shares.iter().max_by(|a, b| a.1.min.total_cmp(&b.1.min)).expect("one at least");
    goals.row(&format!("13: share of a 4-bit search, longest (keys {})", kind.name()), Goal::Below(0.12), *longest);
    let (_, rising) = shares.iter().find(|share| share.0 == Keys::Rising).expect("rising keys were measured");
    goals.row("13: share of a 4-bit search where keys rise", Goal::Below(0.02), *rising);
}

fn changes(goals: &mut Goals) {
    for width in WIDTHS {
        goals.faster(&format!("encode ({}): add to 64 slots", width.name()), 4.0, &change::add(DIM, width, 64, Keys::None));
    }
    goals.faster("fwht of 1,024 entries", 5.0, &change::fwht(DIM));
    for n in [64, 1024, 8192] {
        let all = WIDTHS.iter().flat_map(|&width| KEYS.iter().map(move |&kind| (format!("{}, keys {}", width.name(), kind.name()), change::add(DIM, width, n, kind))));
        let (which, t) = slowest(all.collect());
        goals.faster(&format!("add to {} slots, slowest ({which})", crate::table::count(n)), 1.0, &t);
    }
    let all: Vec<_> = WIDTHS.iter().flat_map(|&width| [Keys::None, Keys::Random].map(|kind| (format!("{}, keys {}", width.name(), kind.name()), change::files(DIM, width, SLOTS, kind)))).collect();
    let (written, read) = all.into_iter().map(|(name, files)| ((name.clone(), files.written), (name, files.read))).unzip();
    for (call, list) in [("to_bytes", written), ("from_bytes", read)] {
        let (which, t) = slowest(list);
        goals.faster(&format!("{call}, slowest ({which})"), 1.0, &t);
    }
}

pub fn print() {
    println!("65,536 slots of 1,024 entries and k = 10 where nothing else is said; \"by minimum\" decides.\n");
    let mut goals = Goals { table: Table::new(&["goal", "wanted", "by minimum", "by median", "by round", "met"]) };
    searches(&mut goals);
    shares(&mut goals);
    changes(&mut goals);
    goals.table.print();
}
