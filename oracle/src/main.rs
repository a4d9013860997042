//! The original collector as the judge: reads bundles and prints one line for each. README.md has the line's form.

use oracle::cases::{sections, whole};
use oracle::judge::{self, judge, or_dash, said, unhex, Judged, Sections, Setting};
use oracle::keep;
use oracle::{listed, order};
use std::io::{self, BufRead, BufReader, BufWriter, Read, Write};
use std::panic::{self, AssertUnwindSafe};

const USAGE: &str = "usage: oracle [--type-units] [--ranges-base N] [--big-endian] [--fixed-addresses]
              [--tags HEX --treatments HEX] [--more] [BUNDLE ..]
       oracle [--big-endian] --expression ADDRESS_SIZE OFFSET_SIZE HEX | --padded VALUE WIDTH | --tombstone ADDRESS ADDRESS_SIZE
Without a file: bundles one after another from standard input.";

fn caught(job: impl FnOnce() -> String) -> String {
    panic::catch_unwind(AssertUnwindSafe(job)).unwrap_or_else(|p| format!("panic {}", said(p)))
}

/// The line of a case. With `more` it says how far it came, and which listed differences the case can show.
fn line(parts: Option<Sections<'_>>, setting: Setting<'_>, more: bool) -> String {
    match parts {
        None => "bundle".to_string(),
        Some(parts) => {
            let judged = judge(parts, setting);
            let mut line = judged.line();
            if more {
                line.push_str(&caught(|| added(parts, setting, &judged)));
            }
            line
        }
    }
}

/// What `--more` adds.
fn added(parts: Sections<'_>, setting: Setting<'_>, judged: &Judged) -> String {
    let case = listed::Case { parts, setting, met: judged.met, marks: &judged.marks };
    let rules: Vec<&str> = listed::rules(&case).into_iter().collect();
    format!(" | met {} references {} listed {}", judged.met, judged.all_references(), or_dash(rules.join(",")))
}

/// Cases from standard input. Lines are handed out before the next case is waited for.
fn stream(output: &mut impl Write, setting: Setting<'_>, more: bool) -> io::Result<()> {
    let mut input = BufReader::with_capacity(1 << 16, io::stdin().lock());
    let mut rest = Vec::new();
    loop {
        if input.buffer().is_empty() {
            output.flush()?;
        }
        if input.fill_buf()?.is_empty() {
            return Ok(());
        }
        let mut length = [0; 4];
        if input.read_exact(&mut length).is_err() {
            return writeln!(output, "bundle");
        }
        let length = u32::from_be_bytes(length) as usize;
        rest.clear();
        input.by_ref().take(length as u64).read_to_end(&mut rest)?;
        if rest.len() < length {
            return writeln!(output, "bundle");
        }
        writeln!(output, "{}", line(sections(&rest), setting, more))?;
    }
}

fn number(text: &str) -> Option<u64> {
    match text.strip_prefix("0x") {
        Some(digits) => u64::from_str_radix(digits, 16).ok(),
        None => text.parse().ok(),
    }
}

/// The calls that take no unit.
fn single(args: &[String]) -> Option<String> {
    let (big_endian, args) = match args {
        [first, rest @ ..] if first == "--big-endian" => (true, rest),
        _ => (false, args),
    };
    if let [what, address_size, offset_size, bytes] = args {
        let format = match number(offset_size)? {
            4 => gimli::Format::Dwarf32,
            8 => gimli::Format::Dwarf64,
            _ => return None,
        };
        let encoding = gimli::Encoding { format, version: 5, address_size: number(address_size)? as u8 };
        let bytes = unhex(bytes)?;
        return (what == "--expression").then(|| {
            caught(|| match judge::references(&bytes, encoding, order::order(big_endian)) {
                Err(e) => format!("error {e}"),
                Ok(found) => {
                    let shown: Vec<String> =
                        found.iter().map(|(place, old, width, _)| format!("{place}:{old}:{width}")).collect();
                    format!("references {} {}", found.len(), or_dash(shown.join(",")))
                }
            })
        });
    }
    let [what, first, second] = args else { return None };
    Some(match what.as_str() {
        "--padded" => {
            let (value, width) = (number(first)?, number(second)? as usize);
            caught(|| match judge::padded(value, width) {
                Err(e) => format!("error {e}"),
                Ok(bytes) => format!("padded {}", judge::hex(&bytes)),
            })
        }
        "--tombstone" => {
            let (address, size) = (number(first)?, number(second)? as u8);
            format!("tombstone {}", if judge::tombstone(address, size) { "yes" } else { "no" })
        }
        _ => return None,
    })
}

fn run() -> io::Result<i32> {
    let mut output = BufWriter::new(io::stdout().lock());
    let args: Vec<String> = std::env::args().skip(1).collect();
    if let Some(line) = single(&args) {
        writeln!(output, "{line}")?;
        output.flush()?;
        return Ok(0);
    }
    let (mut setting, mut list) = (Setting::default(), keep::Owned::default());
    let mut more = false;
    let mut files = Vec::new();
    let mut args = args.into_iter();
    while let Some(arg) = args.next() {
        match arg.as_str() {
            "--type-units" => setting.type_units = true,
            "--big-endian" => setting.big_endian = true,
            "--fixed-addresses" => setting.fixed_addresses = true,
            "--more" => more = true,
            "--ranges-base" => match args.next().as_deref().and_then(number) {
                Some(base) => setting.ranges_base = base as usize,
                None => {
                    eprintln!("{USAGE}");
                    return Ok(2);
                }
            },
            "--tags" | "--treatments" => match args.next().as_deref().and_then(unhex) {
                Some(bytes) => *if arg == "--tags" { &mut list.tags } else { &mut list.treatments } = bytes,
                None => {
                    eprintln!("{USAGE}");
                    return Ok(2);
                }
            },
            _ if arg.starts_with('-') => {
                eprintln!("{USAGE}");
                return Ok(2);
            }
            _ => files.push(arg),
        }
    }
    setting.keep = list.lent();
    if files.is_empty() {
        stream(&mut output, setting, more)?;
    }
    for file in files {
        let shown = match std::fs::read(&file) {
            Ok(bytes) => line(whole(&bytes), setting, more),
            Err(e) => {
                eprintln!("{file}: {e}");
                return Ok(1);
            }
        };
        writeln!(output, "{shown}")?;
    }
    output.flush()?;
    Ok(0)
}

fn main() {
    panic::set_hook(Box::new(|_| ()));
    // Entry values may nest as deep as a bundle has bytes, and the walk is recursive. STACK names another size.
    let size = std::env::var("STACK").ok().and_then(|text| number(&text)).unwrap_or(1 << 30);
    let child = std::thread::Builder::new().stack_size(size as usize).spawn(run).expect("a thread");
    match child.join() {
        Ok(Ok(code)) => std::process::exit(code),
        Ok(Err(e)) => {
            eprintln!("{e}");
            std::process::exit(1)
        }
        Err(p) => {
            eprintln!("{}", said(p));
            std::process::exit(1)
        }
    }
}
