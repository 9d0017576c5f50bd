//! Tables in Markdown, as docs/PERFORMANCE.md has them.

pub struct Table {
    rows: Vec<Vec<String>>,
}

impl Table {
    pub fn new(heads: &[&str]) -> Self {
        Table { rows: vec![heads.iter().map(|h| h.to_string()).collect()] }
    }

    pub fn row(&mut self, cells: Vec<String>) {
        self.rows.push(cells);
    }

    /// The first column stands left, numbers right.
    pub fn print(&self) {
        let wide = |column: usize| self.rows.iter().map(|row| row[column].chars().count()).max().unwrap_or(0);
        let widths: Vec<usize> = (0..self.rows[0].len()).map(wide).collect();
        for (i, row) in self.rows.iter().enumerate() {
            let cells: Vec<String> = row.iter().zip(&widths).enumerate().map(|(c, (cell, &w))| if c == 0 { format!("{cell:<w$}") } else { format!("{cell:>w$}") }).collect();
            println!("| {} |", cells.join(" | "));
            if i == 0 {
                let lines: Vec<String> = widths.iter().enumerate().map(|(c, &w)| if c == 0 { "-".repeat(w) } else { format!("{}:", "-".repeat(w - 1)) }).collect();
                println!("| {} |", lines.join(" | "));
            }
        }
        println!();
    }
}

/// Three significant digits at least, where they are not too small.
fn three(x: f64) -> String {
    let whole = if x > 0.0 { x.log10().floor() as i32 + 1 } else { 1 };
    let places = (3 - whole).clamp(0, 5) as usize;
    format!("{x:.places$}")
}

pub fn ms(seconds: f64) -> String {
    three(seconds * 1e3)
}

pub fn us(seconds: f64) -> String {
    three(seconds * 1e6)
}

pub fn ns(seconds: f64) -> String {
    three(seconds * 1e9)
}

pub fn ratio(x: f64) -> String {
    format!("{x:.2}")
}

pub fn percent(x: f64) -> String {
    format!("{:.2}%", x * 100.0)
}

/// A whole number with commas.
pub fn count(n: usize) -> String {
    let digits = n.to_string();
    let mut text = String::new();
    for (i, digit) in digits.chars().enumerate() {
        if i > 0 && (digits.len() - i) % 3 == 0 {
            text.push(',');
        }
        text.push(digit);
    }
    text
}
