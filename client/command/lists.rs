//! A list as text: what it was made from, and for each query what was asked and the hits. No path and no time is in it, so that two houses with the same
//! bytes get the same list. Bits decide; the decimal beside them is for people.
use crate::sha256;
use crate::stored::Stored;
use std::fmt::{self, Display, Formatter};

/// What all lists of a command were made from.
pub struct Source {
    sha256: String,
    bytes: usize,
    dim: usize,
    bits: u8,
    residual: bool,
    live: usize,
}

impl Source {
    pub fn of(stored: &Stored) -> Source {
        let index = &stored.index;
        Source {
            sha256: sha256::of(&stored.bytes),
            bytes: stored.bytes.len(),
            dim: index.dim(),
            bits: index.bits(),
            residual: index.is_residual(),
            live: index.live(),
        }
    }
}

#[derive(Clone, Copy, PartialEq)]
pub enum By {
    Slot,
    Key,
}

/// What is asked of each query.
#[derive(Clone, Copy)]
pub struct Asked {
    pub k: usize,
    pub by: By,
    /// How many candidates the cascade keeps; none: every slot is scored.
    pub cascade: Option<usize>,
}

/// A line of a list. By key it has no slot.
pub struct Ranked {
    pub slot: Option<u32>,
    pub key: Option<u64>,
    pub score: f32,
}

/// The answer to a query.
pub struct List {
    /// Counted from 1.
    pub query: usize,
    /// The query's own key; the outer none: queries have no keys.
    pub key: Option<Option<u64>>,
    pub sha256: String,
    pub asked: Asked,
    pub hits: Vec<Ranked>,
}

#[derive(Clone, Copy)]
pub enum Format {
    Tsv,
    Json,
}

impl Format {
    /// What comes before the lists.
    pub fn start(self, source: &Source) -> String {
        match self {
            Format::Tsv => TsvStart(source).to_string(),
            Format::Json => JsonStart(source).to_string(),
        }
    }

    pub fn list(self, list: &List) -> String {
        match self {
            Format::Tsv => Tsv(list).to_string(),
            Format::Json => Json(list).to_string(),
        }
    }

    /// What comes after the lists.
    pub fn end(self) -> &'static str {
        match self {
            Format::Tsv => "",
            Format::Json => "\n]}\n",
        }
    }
}

/// A key or a slot, or - for none.
pub fn or_dash(number: Option<impl Display>) -> String {
    number.map_or(String::from("-"), |number| number.to_string())
}

pub fn yes_or_no(yes: bool) -> &'static str {
    if yes {
        "yes"
    } else {
        "no"
    }
}

fn word(by: By) -> &'static str {
    match by {
        By::Slot => "slot",
        By::Key => "key",
    }
}

// ---- lines of fields parted by tabs, comments before them

struct TsvStart<'a>(&'a Source);

impl Display for TsvStart<'_> {
    fn fmt(&self, f: &mut Formatter<'_>) -> fmt::Result {
        let Source { sha256, bytes, dim, bits, residual, live } = self.0;
        let residual = yes_or_no(*residual);
        writeln!(f, "# vecq list 1")?;
        writeln!(f, "# index sha256 {sha256} bytes {bytes} dim {dim} bits {bits} residual {residual} live {live}")
    }
}

struct Tsv<'a>(&'a List);

impl Display for Tsv<'_> {
    fn fmt(&self, f: &mut Formatter<'_>) -> fmt::Result {
        let List { query, key, sha256, asked, hits } = self.0;
        let key = key.map_or(String::new(), |key| format!(" key {}", or_dash(key)));
        let kind = asked.cascade.map_or(String::from("full"), |candidates| format!("cascade {candidates}"));
        writeln!(f, "# query {query}{key} sha256 {sha256} k {} by {} {kind}", asked.k, word(asked.by))?;
        hits.iter().zip(1..).try_for_each(|(hit, rank)| tsv_line(f, rank, hit))
    }
}

fn tsv_line(f: &mut Formatter<'_>, rank: usize, hit: &Ranked) -> fmt::Result {
    writeln!(f, "{rank}\t{}\t{}\t{:08X}\t{}", or_dash(hit.slot), or_dash(hit.key), hit.score.to_bits(), hit.score)
}

// ---- JSON: keys are strings, since many readers round numbers over 2^53

struct JsonStart<'a>(&'a Source);

impl Display for JsonStart<'_> {
    fn fmt(&self, f: &mut Formatter<'_>) -> fmt::Result {
        let Source { sha256, bytes, dim, bits, residual, live } = self.0;
        write!(f, r#"{{"index":{{"sha256":"{sha256}","bytes":{bytes},"dim":{dim},"bits":{bits},"residual":{residual},"live":{live}}},"lists":["#)
    }
}

struct Json<'a>(&'a List);

impl Display for Json<'_> {
    fn fmt(&self, f: &mut Formatter<'_>) -> fmt::Result {
        let List { query, key, sha256, asked, hits } = self.0;
        let before = if *query == 1 { "" } else { "," };
        let key = key.map_or(String::new(), |key| format!(r#""key":{},"#, json_key(key)));
        let (k, by, cascade) = (asked.k, word(asked.by), or_null(asked.cascade));
        write!(f, "{before}\n{{\"query\":{query},{key}\"sha256\":\"{sha256}\",\"k\":{k},\"by\":\"{by}\",\"cascade\":{cascade},\"hits\":[")?;
        hits.iter().zip(1..).try_for_each(|(hit, rank)| json_hit(f, rank, hit))?;
        write!(f, "]}}")
    }
}

fn json_hit(f: &mut Formatter<'_>, rank: usize, hit: &Ranked) -> fmt::Result {
    let before = if rank == 1 { "" } else { "," };
    let (slot, key, bits, score) = (or_null(hit.slot), json_key(hit.key), hit.score.to_bits(), json_score(hit.score));
    write!(f, r#"{before}{{"rank":{rank},"slot":{slot},"key":{key},"bits":"{bits:08X}","score":{score}}}"#)
}

fn or_null(number: Option<impl Display>) -> String {
    number.map_or(String::from("null"), |number| number.to_string())
}

fn json_key(key: Option<u64>) -> String {
    or_null(key.map(|key| format!("\"{key}\"")))
}

/// JSON has no infinity, which a file's scale can give; its bits say it.
fn json_score(score: f32) -> String {
    or_null(score.is_finite().then(|| format!("{score:?}")))
}
