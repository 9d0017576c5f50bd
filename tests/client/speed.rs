//! The data that tests/client/speed times the command on, and what the library's calls alone take of the same work.
use std::fs::{self, File};
use std::io::{BufWriter, Write};
use std::process::ExitCode;
use std::time::Instant;
use vecq::Index;

/// Vigna's xorshift64*.
struct Random(u64);

impl Random {
    fn next(&mut self) -> u64 {
        self.0 ^= self.0 >> 12;
        self.0 ^= self.0 << 25;
        self.0 ^= self.0 >> 27;
        self.0.wrapping_mul(0x2545_F491_4F6C_DD1D)
    }

    /// From -1 to 1.
    fn entry(&mut self) -> f32 {
        (self.next() >> 40) as f32 / (1 << 23) as f32 - 1.0
    }
}

type Done = Result<(), Box<dyn std::error::Error>>;

/// NAME.fvecs of so many vectors, and NAME.keys, rising or random.
fn data(name: &str, count: usize, dim: usize, random_keys: bool) -> Done {
    let mut random = Random(1);
    let mut vectors = BufWriter::new(File::create(format!("{name}.fvecs"))?);
    let mut keys = BufWriter::new(File::create(format!("{name}.keys"))?);
    for slot in 0..count as u64 {
        vectors.write_all(&(dim as u32).to_le_bytes())?;
        for _ in 0..dim {
            vectors.write_all(&random.entry().to_le_bytes())?;
        }
        writeln!(keys, "{}", if random_keys { random.next() } else { slot })?;
    }
    Ok(())
}

/// The vectors of a file whose vectors all have as many entries as the first.
fn vectors(path: &str) -> Result<Vec<Vec<f32>>, std::io::Error> {
    let bytes = fs::read(path)?;
    let words: Vec<[u8; 4]> = bytes.chunks_exact(4).map(|word| [word[0], word[1], word[2], word[3]]).collect();
    let dim = words.first().map_or(0, |word| u32::from_le_bytes(*word) as usize);
    Ok(words.chunks_exact(dim + 1).map(|row| row[1..].iter().map(|word| f32::from_le_bytes(*word)).collect()).collect())
}

/// Seconds of reading the file and searching it by each query.
fn find(file: &str, queries: &str) -> Done {
    let (bytes, queries) = (fs::read(file)?, vectors(queries)?);
    let began = Instant::now();
    let index = Index::from_bytes(&bytes, 0)?;
    for query in &queries {
        std::hint::black_box(index.search(query, 10)?);
    }
    println!("{:.3}", began.elapsed().as_secs_f64());
    Ok(())
}

/// Seconds of adding each vector under its key.
fn add(name: &str) -> Done {
    let vectors = vectors(&format!("{name}.fvecs"))?;
    let keys = fs::read_to_string(format!("{name}.keys"))?;
    let began = Instant::now();
    let mut index = Index::new(vectors.first().map_or(1, Vec::len), 1)?;
    index.reserve(vectors.len())?;
    for (vector, key) in vectors.iter().zip(keys.lines()) {
        index.add_keyed(key.parse()?, vector, 1, 1)?;
    }
    println!("{:.3}", began.elapsed().as_secs_f64());
    Ok(())
}

fn run(words: &[&str]) -> Done {
    match words {
        ["data", name, count, dim, keys] => data(name, count.parse()?, dim.parse()?, *keys == "random"),
        ["find", file, queries] => find(file, queries),
        ["add", name] => add(name),
        _ => Err("data NAME COUNT DIM rising|random, find FILE QUERIES, or add NAME".into()),
    }
}

fn main() -> ExitCode {
    let words: Vec<String> = std::env::args().skip(1).collect();
    match run(&words.iter().map(String::as_str).collect::<Vec<&str>>()) {
        Ok(()) => ExitCode::SUCCESS,
        Err(error) => {
            eprintln!("speed: {error}");
            ExitCode::FAILURE
        }
    }
}
