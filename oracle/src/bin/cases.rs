//! Makes cases: bundles one after another on standard output, the same for the same seed. README.md names the families.

use oracle::cases::{bundle, unbundle, Cases};
use oracle::order::Layout;
use std::io::{self, BufWriter, Write};

const USAGE: &str = "usage: cases [--seed N] [--count N] [--big-endian] [--64-bit] [--version-4] FAMILY [BUNDLE ..]
Families: small, bytes, valid, lists, expressions, trees, deep, refused, headers, declarations, numbers, operations,
kinds, siblings, many, damaged, listed, sums, no-table, failures, addresses; of given bundles: tables, damaged-files.
Little-endian, or big-endian, of the 32-bit format or of the 64-bit one, and of version 5 or 4, as given bundles then
have to be.";

fn main() -> io::Result<()> {
    let (mut seed, mut count) = (1u64, 1000usize);
    let (mut big_endian, mut wide, mut older) = (false, false, false);
    let mut words = Vec::new();
    let mut args = std::env::args().skip(1);
    let usage = || -> ! {
        eprintln!("{USAGE}");
        std::process::exit(2)
    };
    while let Some(arg) = args.next() {
        let mut number = || args.next().and_then(|n| n.parse().ok()).unwrap_or_else(|| usage());
        match arg.as_str() {
            "--seed" => seed = number(),
            "--count" => count = number() as usize,
            "--big-endian" => big_endian = true,
            "--64-bit" => wide = true,
            "--version-4" => older = true,
            _ if arg.starts_with('-') => usage(),
            _ => words.push(arg),
        }
    }
    let Some((family, files)) = words.split_first() else { usage() };
    let mut given = Vec::new();
    for file in files {
        match unbundle(&std::fs::read(file)?) {
            Some(parts) => given.push(parts),
            None => {
                eprintln!("{file}: no bundle");
                std::process::exit(1);
            }
        }
    }
    let Some(mut cases) = Cases::new(family, seed, Layout::new(big_endian, wide, older), &given) else { usage() };
    let mut output = BufWriter::new(io::stdout().lock());
    for i in 0..count {
        output.write_all(&bundle(&cases.case(i)))?;
    }
    output.flush()
}
