//! An independent twin of the record store in plain Rust, written from the papers under docs/ alone.

mod fields;
mod kind;
mod pruning;
mod random;
mod registry;
mod store;
mod tallies;
mod versions;
mod words;
mod workload;

use std::io::{self, BufWriter, Write};

fn main() -> io::Result<()> {
    let arguments: Vec<String> = std::env::args().skip(1).collect();
    let mut out = BufWriter::new(io::stdout().lock());
    workload::bench_pruning(&arguments[2..], &mut out)?;
    out.flush()
}
