//! Growth: what a call takes against slots, size and dead slots.
use crate::change;
use crate::data::{Keys, Width, KEYS, WIDTHS};
use crate::look::Look;
use crate::parts::KINDS;
use crate::table::{count, ms, ns, ratio, us, Table};

const SLOTS: [usize; 7] = [1024, 2048, 4096, 8192, 16_384, 32_768, 65_536];

/// The exponent p of the curve c·x^p that is nearest to the points, by least squares over the logarithms: 1 is linear.
fn exponent(xs: &[usize], seconds: &[f64]) -> f64 {
    let n = xs.len() as f64;
    let logs: Vec<(f64, f64)> = xs.iter().zip(seconds).map(|(&x, &t)| ((x as f64).ln(), t.ln())).collect();
    let (mx, mt) = (logs.iter().map(|l| l.0).sum::<f64>() / n, logs.iter().map(|l| l.1).sum::<f64>() / n);
    logs.iter().map(|l| (l.0 - mx) * (l.1 - mt)).sum::<f64>() / logs.iter().map(|l| (l.0 - mx).powi(2)).sum::<f64>()
}

/// A table with a column for each point: the time, divided by the point, and the exponent over all.
fn table(what: &str, points: &[usize], lines: Vec<(String, Vec<f64>)>, unit: fn(f64) -> String, each: impl Fn(usize, f64) -> f64) {
    let mut heads = vec![what.to_string()];
    heads.extend(points.iter().map(|&p| count(p)));
    heads.push("exponent".to_string());
    let mut table = Table::new(&heads.iter().map(String::as_str).collect::<Vec<_>>());
    for (name, seconds) in lines {
        let mut cells = vec![name];
        cells.extend(points.iter().zip(&seconds).map(|(&p, &t)| unit(each(p, t))));
        cells.push(ratio(exponent(points, &seconds)));
        table.row(cells);
    }
    table.print();
}

/// Seconds of our search in each of these indexes.
fn searches(looks: Vec<Look>) -> Vec<f64> {
    Look::race(&looks, 10).iter().map(|t| t.min).collect()
}

fn against_slots() {
    println!("Search against live slots, 1,024 entries, k = 10: ns a slot.\n");
    let line = |width: Width| (format!("width {}", width.name()), searches(SLOTS.iter().map(|&n| Look::new(1024, width, n, 0.0)).collect()));
    table("slots", &SLOTS, WIDTHS.iter().map(|&width| line(width)).collect(), ns, |n, t| t / n as f64);
}

fn against_size() {
    const DIMS: [usize; 5] = [256, 512, 1024, 2048, 4096];
    println!("Search against the padded size, 8,192 slots, k = 10: ns a slot and entry.\n");
    let line = |width: Width| (format!("width {}", width.name()), searches(DIMS.iter().map(|&dim| Look::new(dim, width, 8192, 0.0)).collect()));
    table("entries", &DIMS, WIDTHS.iter().map(|&width| line(width)).collect(), ns, |dim, t| t / (8192 * dim) as f64);
}

fn against_dead() {
    println!("Search of 65,536 slots of 1,024 entries against the share of dead ones, k = 10: ms.\n");
    const DEAD: [f64; 6] = [0.0, 0.25, 0.5, 0.75, 0.9, 1.0];
    let mut heads = vec!["dead".to_string()];
    heads.extend(DEAD.iter().map(|&share| format!("{}%", share * 100.0)));
    let mut table = Table::new(&heads.iter().map(String::as_str).collect::<Vec<_>>());
    for width in WIDTHS {
        let seconds = searches(DEAD.iter().map(|&share| Look::new(1024, width, 65_536, share)).collect());
        let mut cells = vec![format!("width {}", width.name())];
        cells.extend(seconds.iter().map(|&t| ms(t)));
        table.row(cells);
    }
    table.print();
}

fn cascade_against_dead() {
    println!("Cascade of 65,536 slots, 4 bits, against the share of dead ones, k = 10, r = 200: ms.\n");
    const DEAD: [f64; 6] = [0.0, 0.25, 0.5, 0.75, 0.9, 0.97];
    let mut heads = vec!["entries".to_string()];
    heads.extend(DEAD.iter().map(|&share| format!("{}%", share * 100.0)));
    let mut table = Table::new(&heads.iter().map(String::as_str).collect::<Vec<_>>());
    for dim in [8, 64, 1024] {
        let mut cells = vec![count(dim)];
        cells.extend(DEAD.iter().map(|&share| ms(Look::new(dim, Width::Four, 65_536, share).cascade(10, 200).0.ours.min)));
        table.row(cells);
    }
    table.print();
}

/// With all slots live, then with every third dead.
pub fn refusal_13() {
    for (what, look) in [("", (|n| Look::new(2, Width::Four, n, 0.0)) as fn(usize) -> Look), (", every third one dead", |n| Look::thirds(2, Width::Four, n))] {
        println!("Refusal 13 against slots{what}: ns a slot.\n");
        let columns: Vec<Vec<f64>> = SLOTS.iter().map(|&n| look(n).refusal_13(&KINDS).iter().map(|t| t.min).collect()).collect();
        let lines = KINDS.iter().enumerate().map(|(i, kind)| (format!("keys {}", kind.name()), columns.iter().map(|column| column[i]).collect()));
        table("slots", &SLOTS, lines.collect(), ns, |n, t| t / n as f64);
    }
}

fn add() {
    println!("Add against slots, 4 bits, 1,024 entries: µs a call.\n");
    let line = |kind: Keys| (format!("keys {}", kind.name()), SLOTS.iter().map(|&n| change::add(1024, Width::Four, n, kind).ours.min).collect());
    table("slots", &SLOTS, KEYS.iter().map(|&kind| line(kind)).collect(), us, |_, t| t);
}

pub fn print() {
    println!("The exponent is p of the curve c·x^p that is nearest to the points; 1 is linear.\n");
    against_slots();
    against_size();
    against_dead();
    cascade_against_dead();
    add();
}
