//! Games with one trait as document 02 (Req 05) has them: scores and cascade candidates at padded size 1 and width 4. "The Rust stops on these inputs, so the
//! definition is the only measure." The sign, the tables and the count of boundaries are the Rust's; that the query is prepared "as at other sizes" is held to the
//! Rust's own preparing.
use vecq::lloyd;
use vecq::rhdh::{padded_dim, SignStream};
use vecq::store::VecqIndex;

/// "At padded size 1 and width 4"
pub fn is_meant(working_dim: usize, bits: u8) -> bool {
    padded_dim(working_dim) == 1 && bits == 4
}

/// What a stage of a slot stores: one byte and a scale.
#[derive(Clone, Copy)]
pub struct Stage {
    pub byte: u8,
    pub scale: f32,
}

/// The stages of a slot of the Rust's index, the second if it is residual.
pub fn stages(index: &VecqIndex, slot: usize) -> (Stage, Option<Stage>) {
    let second = index.residual.then(|| Stage { byte: index.codes2[slot], scale: index.scales2[slot] });
    (Stage { byte: index.codes[slot], scale: index.scales[slot] }, second)
}

/// "the score takes only the low four bits"; "The high four bits count for nothing, in cascade distance too."
fn code(byte: u8) -> u8 {
    byte & 0x0F
}

/// A prepared query of one entry.
#[derive(Clone, Copy)]
pub struct Query {
    entry: f32,
    rnorm: f32,
}

impl Query {
    /// "the query entry, rotated as at other sizes": divided by its norm, times the sign, and divided by the norm of that. The transform of one entry is the entry.
    pub fn prepared(seed: u64, entry: f32) -> Self {
        let unit = entry / (entry * entry).sqrt();
        let rotated = unit * SignStream::new(seed).next_sign();
        let rnorm = (rotated * rotated).sqrt();
        Query { entry: rotated / rnorm, rnorm }
    }

    /// The same for an index of the Rust's, whose own preparing doesn't stop there and must agree.
    pub fn of(index: &VecqIndex, query: &[f32]) -> Self {
        let ours = Query::prepared(index.seed(), query[0]);
        let theirs = index.prepare_query(query);
        let same = |a: f32, b: f32| a.to_bits() == b.to_bits() || a.is_nan() && b.is_nan();
        assert!(theirs.rotated.len() == 1 && same(theirs.rotated[0], ours.entry), "the Rust's entry is another");
        assert!(same(theirs.rnorm, ours.rnorm), "the Rust's rnorm is another");
        ours
    }

    /// "the query entry .. times its centroid, times the scale": two products and no sum, so that a product of -0 stays -0.
    fn stage_score(self, stage: Stage) -> f32 {
        let product = self.entry * lloyd::CENTROIDS_4BIT[code(stage.byte) as usize];
        product * stage.scale
    }

    /// "the residual stage likewise, and the two are added"
    pub fn score(self, (first, second): (Stage, Option<Stage>)) -> f32 {
        match second {
            Some(second) => self.stage_score(first) + self.stage_score(second),
            None => self.stage_score(first),
        }
    }

    /// 01: "the difference of the codes' top two bits, the query's code taken of entry times rnorm". There is one lane.
    fn distance(self, byte: u8) -> u8 {
        let own = lloyd::quantize_4bit(self.entry * self.rnorm);
        (own >> 2).abs_diff(code(byte) >> 2)
    }

    /// The slots that a cascade scores, of these live ones and the bytes of their first stage.
    pub fn candidates(self, live: &[(usize, u8)], k: usize, r: usize) -> Vec<usize> {
        // "k becomes min(k, live), then at least 1."
        let k = k.min(live.len()).max(1);
        // "The r smallest (distance, slot) pairs, r raised to k, at most live, are scored in slot order"
        let mut pairs: Vec<(u8, usize)> = live.iter().map(|&(slot, byte)| (self.distance(byte), slot)).collect();
        pairs.sort_unstable();
        pairs.truncate(r.max(k));
        let mut slots: Vec<usize> = pairs.into_iter().map(|pair| pair.1).collect();
        slots.sort_unstable();
        slots
    }
}
