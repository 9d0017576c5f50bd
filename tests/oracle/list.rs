//! A fixed list: lines for a program's standard input, and the line that it must print for each.
use std::fs;
use std::path::Path;

#[derive(Default)]
pub struct List {
    stdin: String,
    stdout: String,
    sections: Vec<(String, usize)>,
}

impl List {
    /// A comment line, which the programs answer with an empty line, and a new row of the printed counts.
    pub fn section(&mut self, title: &str) {
        self.stdin += &format!("# {title}\n");
        self.stdout += "\n";
        self.sections.push((title.to_string(), 0));
    }

    pub fn ask(&mut self, line: String, answer: String) {
        assert!(!line.contains('\n') && !answer.contains('\n'));
        self.stdin += &line;
        self.stdin += "\n";
        self.stdout += &answer;
        self.stdout += "\n";
        self.sections.last_mut().expect("a section comes first").1 += 1;
    }

    /// The last line of the input goes without its newline, which the programs have to bear.
    pub fn write(&self, dir: &Path) {
        let stdin = self.stdin.strip_suffix('\n').expect("a list has lines");
        fs::write(dir.join("stdin"), stdin).expect("stdin is written");
        fs::write(dir.join("stdout"), &self.stdout).expect("stdout is written");
        for (title, lines) in &self.sections {
            println!("{lines:6}  {title}");
        }
        let lines: usize = self.sections.iter().map(|s| s.1).sum();
        println!("{lines:6}  lines, {} bytes in, {} bytes out", stdin.len(), self.stdout.len());
    }
}
