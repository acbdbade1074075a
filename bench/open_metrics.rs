//! open_metrics SERIES SAMPLES: prints the samples of make_block.rs as a text that `promtool` makes a block
//! of.
//! std only: rustc -O open_metrics.rs
use std::env;
use std::io::{self, BufWriter, Write};

#[allow(dead_code)]
#[path = "make_block.rs"]
mod make_block;

fn main() -> io::Result<()> {
    let numbers: Vec<u64> = env::args().skip(1).map(|word| word.parse().expect("SERIES SAMPLES")).collect();
    let mut out = BufWriter::new(io::stdout().lock());
    for n in 0..numbers[0] {
        let labels = make_block::labels(n);
        let (name, others) = labels.split_first().expect("a name");
        let pairs: Vec<String> = others.iter().map(|(name, value)| format!("{name}=\"{value}\"")).collect();
        let series = format!("{}{{{}}}", name.1, pairs.join(","));
        for k in 0..numbers[1] as i64 {
            writeln!(out, "{series} {} {}", make_block::value(n, k), make_block::time(k) / 1000)?;
        }
    }
    writeln!(out, "# EOF")
}
