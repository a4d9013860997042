//! Time and stack of the port's C call and of the original, in one process on the same units; bench/README.md has the rules.

use gimli::Endianity;
use oracle::cases::{slices, unbundle, Parts};
use oracle::growth::{self, half_live, name, sizes, FAMILIES, QUADRATIC};
use oracle::judge::{judge, measured, Judged, Outcome, Sections, Setting};
use oracle::order::Layout;
use std::collections::BTreeSet;
use std::hint::black_box;

const USAGE: &str = "usage: bench [WORDS] units BUNDLE ..          each bundle, with about half of its addresses dead
       bench [WORDS] families MOST [FAMILY ..] each family, up to this size
       bench [WORDS] calls SIZE [BUNDLE ..]    one call of each kind through bench_measured, of the units of this size of the
                                               families that are not quadratic in both and of the bundles: for callgrind
       bench [WORDS] repeat SIDE N BUNDLE      N calls of port, own or original
WORDS: --big-endian, --64-bit, --version-4: the families' units are of that byte order, format and version; bundles have to be of that byte order";

extern "C" {
    fn collector_collect(
        section: *const u8, _: usize, abbreviations: *const u8, _: usize, locations: *const u8, _: usize, ranges: *const u8, _: usize,
        addresses: *const u8, _: usize, debug_ranges: *const u8, _: usize, tags: *const u8, _: usize, treatments: *const u8, _: usize,
        ranges_base: u64, type_units: u64, big_endian: u64, fixed_addresses: u64,
        map: *mut u8, _: usize, range_list: *mut u8, _: usize,
        location_list: *mut u8, _: usize, string_list: *mut u8, _: usize, out: *mut u8, _: usize, counts: *mut u8, _: usize,
    ) -> u64;
    fn collector_collect_lent(
        section: *const u8, _: usize, abbreviations: *const u8, _: usize, locations: *const u8, _: usize, ranges: *const u8, _: usize,
        addresses: *const u8, _: usize, debug_ranges: *const u8, _: usize, tags: *const u8, _: usize, treatments: *const u8, _: usize,
        ranges_base: u64, type_units: u64, big_endian: u64, fixed_addresses: u64,
        index: *mut u64, _: usize, offsets: *mut u64, _: usize,
        parents: *mut u64, _: usize, roots: *mut u8, _: usize, ends: *mut u64, _: usize, marks: *mut u8, _: usize, targets: *mut u64, _: usize,
        pairs: *mut u64, _: usize, work: *mut u32, _: usize, map: *mut u8, _: usize, range_list: *mut u8, _: usize,
        location_list: *mut u8, _: usize, string_list: *mut u8, _: usize, out: *mut u8, _: usize, counts: *mut u8, _: usize,
    ) -> u64;
    fn clock_gettime(clock: i32, time: *mut [i64; 2]) -> i32;
}

/// Entries and references of the C call's own tables, and bytes of the counts.
const OWN: (usize, usize) = (2048, 8192);
const COUNTS: usize = 59;
/// Bytes of a place of the map.
const PLACE: usize = 24;
/// A call that would take longer is not made.
const LONGEST: f64 = 5e9;
/// A measurement repeats the call until it takes so long.
const LEAST: f64 = 2e6;

/// Nanoseconds that this thread has run.
fn now() -> f64 {
    let mut time = [0; 2];
    // CLOCK_THREAD_CPUTIME_ID
    assert_eq!(unsafe { clock_gettime(3, &mut time) }, 0);
    time[0] as f64 * 1e9 + time[1] as f64
}

/// The least time of a call, of several measurements, and how many they were.
fn least(call: &mut dyn FnMut()) -> (f64, usize) {
    let start = now();
    call();
    let first = (now() - start).max(1.0);
    if first > 1e9 {
        return (first, 1);
    }
    let repeats = (LEAST / first).ceil();
    let runs = if first > 1e8 { 3 } else { 9 };
    let mut best = f64::MAX;
    for _ in 0..runs {
        let start = now();
        for _ in 0..repeats as usize {
            call();
        }
        best = best.min((now() - start) / repeats);
    }
    (best, runs)
}

const PAINTED: usize = 1 << 20;

/// Bytes of stack below this frame that a call writes, up to PAINTED.
#[inline(never)]
fn stack(call: &mut dyn FnMut()) -> usize {
    let mut mark = 0u8;
    let here = black_box(&mut mark as *mut u8 as usize);
    for at in here - PAINTED..here - 256 {
        unsafe { (at as *mut u8).write_volatile(0xa5) };
    }
    call();
    (here - PAINTED..here).find(|at| unsafe { (*at as *const u8).read_volatile() } != 0xa5).map_or(0, |at| here - at)
}

/// What is measured, how it is to be read, and how many numbers of an index are lent.
struct Unit {
    parts: Parts,
    setting: Setting<'static>,
    index: usize,
}

impl Unit {
    /// An index of as many declarations as the abbreviations have room for.
    fn new(parts: Parts, big_endian: bool) -> Self {
        let index = parts[1].len() / 5 + 1;
        Unit { parts, setting: Setting { big_endian, ..Setting::default() }, index }
    }

    /// Version, format, byte order and address size.
    fn layout(&self) -> String {
        let section = &self.parts[0];
        let layout = Layout::of(self.setting.order(), section);
        let (version, format) = (if layout.older { 4 } else { 5 }, 8 * layout.word());
        format!("{version} {format} {} {}", if self.setting.big_endian { "big" } else { "little" }, section[layout.address_size()])
    }

    fn parts(&self) -> Sections<'_> {
        slices(&self.parts)
    }
}

/// What a host can know of a unit.
struct Sizes {
    entries: usize,
    items: usize,
    /// How many numbers the unit has for ranges, locations and strings.
    lists: [usize; 3],
}

fn sizes_of(unit: &Unit) -> gimli::Result<Sizes> {
    let reader = |i: usize| gimli::EndianSlice::new(&unit.parts[i], unit.setting.order());
    let header = gimli::DebugInfo::from(reader(0)).units().next()?.ok_or(gimli::Error::MissingUnitDie)?;
    let table = header.abbreviations(&gimli::DebugAbbrev::from(reader(1)))?;
    let mut found = Sizes { entries: 0, items: 0, lists: [0; 3] };
    let mut lists: [BTreeSet<usize>; 3] = Default::default();
    let mut entries = header.entries_raw(&table, None)?;
    while !entries.is_empty() {
        found.items += 1;
        let Some(abbreviation) = entries.read_abbreviation()? else { continue };
        found.entries += 1;
        for spec in abbreviation.attributes() {
            match entries.read_attribute(*spec)?.raw_value() {
                gimli::AttributeValue::DebugRngListsIndex(i) => lists[0].insert(i.0),
                gimli::AttributeValue::DebugLocListsIndex(i) => lists[1].insert(i.0),
                gimli::AttributeValue::DebugStrOffsetsIndex(i) => lists[2].insert(i.0),
                _ => false,
            };
        }
    }
    found.lists = lists.map(|l| l.len());
    Ok(found)
}

/// What is lent, made once for a unit.
struct Lent {
    index: Vec<u64>,
    offsets: Vec<u64>,
    parents: Vec<u64>,
    roots: Vec<u8>,
    ends: Vec<u64>,
    marks: Vec<u8>,
    targets: Vec<u64>,
    pairs: Vec<u64>,
    work: Vec<u32>,
    map: Vec<u8>,
    lists: [Vec<u8>; 3],
    out: Vec<u8>,
    counts: Vec<u8>,
}

impl Lent {
    /// Tables of the unit's size; a map of all its items; an output as long as the section.
    fn new(unit: &Unit, sizes: &Sizes, references: usize) -> Self {
        let (parts, n) = (&unit.parts, sizes.entries);
        Lent {
            index: vec![0; unit.index],
            offsets: vec![0; n],
            parents: vec![0; n],
            roots: vec![0; n],
            ends: vec![0; n],
            marks: vec![0; n],
            targets: vec![0; references],
            pairs: vec![0; 2 * references],
            work: vec![0; 2 * n],
            map: vec![0; PLACE * sizes.items],
            lists: sizes.lists.map(|l| vec![0; 8 * l]),
            out: vec![0; parts[0].len()],
            counts: vec![0; COUNTS],
        }
    }

    /// Bytes of the tables, and of what holds the answer.
    fn bytes(&self) -> (usize, usize) {
        let tables = 8 * (self.index.len() + self.offsets.len() + self.parents.len() + self.ends.len() + self.targets.len() + self.pairs.len())
            + 4 * self.work.len()
            + self.roots.len()
            + self.marks.len();
        (tables, self.map.len() + self.lists.iter().map(Vec::len).sum::<usize>() + self.out.len() + COUNTS)
    }
}

macro_rules! collect {
    ($f:ident, $unit:expr, $l:expr, [$($t:ident),*]) => {{
        let (s, l): (Sections<'_>, &mut Lent) = ($unit.parts(), $l);
        unsafe {
            $f(
                s[0].as_ptr(), s[0].len(), s[1].as_ptr(), s[1].len(), s[2].as_ptr(), s[2].len(), s[3].as_ptr(), s[3].len(),
                s[4].as_ptr(), s[4].len(), s[5].as_ptr(), s[5].len(), [].as_ptr(), 0, [].as_ptr(), 0, 0, 0, $unit.setting.big_endian.into(), 0,
                $(l.$t.as_mut_ptr(), l.$t.len(),)* l.map.as_mut_ptr(), l.map.len(),
                l.lists[0].as_mut_ptr(), l.lists[0].len(), l.lists[1].as_mut_ptr(), l.lists[1].len(), l.lists[2].as_mut_ptr(), l.lists[2].len(),
                l.out.as_mut_ptr(), l.out.len(), l.counts.as_mut_ptr(), l.counts.len(),
            )
        }
    }};
}

fn port(unit: &Unit, lent: &mut Lent) -> u64 {
    collect!(collector_collect_lent, unit, lent, [index, offsets, parents, roots, ends, marks, targets, pairs, work])
}

fn own(unit: &Unit, lent: &mut Lent) -> u64 {
    collect!(collector_collect, unit, lent, [])
}

fn original(unit: &Unit) -> Option<usize> {
    measured(unit.parts(), unit.setting)
}

/// The answer's counts: entries, kept entries, places, bytes, numbers of the three lists.
fn counts(lent: &Lent) -> Vec<usize> {
    lent.counts[..56].chunks(8).map(|c| c.iter().fold(0, |n, b| n << 8 | usize::from(*b))).collect()
}

/// Both sides' answers must be the same bytes and places, and lists of the same length.
fn same(what: &str, judged: &Outcome, number: u64, lent: &Lent) {
    let Outcome::Answer(answer) = judged else { panic!("{what}: the original gives no answer") };
    let found = counts(lent);
    let lists = [0, 1, 2].map(|i: usize| answer.lists[i].as_ref().map_or(0, BTreeSet::len));
    let bytes = answer.rewritten.as_deref().unwrap_or(&[]);
    assert_eq!(number, if bytes.is_empty() { 256 } else { 257 }, "{what}: the port's answer");
    assert!(lent.out[..found[3]] == *bytes, "{what}: the new units differ");
    assert_eq!(found[4..], lists, "{what}: lists");
    let places: Vec<u8> = answer.map.iter().flat_map(|p| [p.0, p.1, p.2]).flat_map(|n| (n as u64).to_be_bytes()).collect();
    assert!(lent.map[..PLACE * found[2]] == places, "{what}: the maps differ");
}

/// What the original finds in a unit: its references, and the answer.
fn judged(unit: &Unit) -> Judged {
    judge(unit.parts(), unit.setting)
}

/// What is lent for a unit that both sides answer, after one call of each; none where both refuse.
fn prepared(what: &str, unit: &Unit, sizes: &Sizes) -> Option<(Lent, usize)> {
    let judged = judged(unit);
    let mut lent = Lent::new(unit, sizes, judged.all_references());
    let number = port(unit, &mut lent);
    if let Outcome::Error(_, names) = &judged.outcome {
        println!("refused\t{what}\t{names}\t{number}");
        assert!(number < 256, "{what}: the port answers what the original refuses");
        return None;
    }
    same(what, &judged.outcome, number, &lent);
    Some((lent, judged.all_references()))
}

/// A side that is not called has no time.
#[derive(Clone, Copy, Default)]
struct Times {
    port: Option<f64>,
    original: Option<f64>,
}

fn shown(n: Option<impl ToString>) -> String {
    n.map_or("-".to_string(), |n| n.to_string())
}

/// Measures the sides that are to be called, port and original, and prints what was found.
fn row(kind: &str, what: &str, size: usize, unit: &Unit, scaled: usize, sides: (bool, bool)) -> Option<(Times, usize)> {
    let sizes = sizes_of(unit).expect("a readable unit");
    let (mut lent, references) = match sides {
        (true, true) => prepared(what, unit, &sizes)?,
        (_, true) => (Lent::new(unit, &sizes, 0), judged(unit).all_references()),
        _ => (Lent::new(unit, &sizes, scaled), scaled),
    };
    let fits = sizes.entries <= OWN.0 && references <= OWN.1;
    let painted = size <= 1000;
    let mut runs = 0;
    let mut one = |made: bool, call: &mut dyn FnMut()| {
        if !made {
            return (None, None);
        }
        let used = painted.then(|| stack(call));
        let (time, times) = least(call);
        runs = runs.max(times);
        (Some(time), used)
    };
    let (by_original, original_stack) = one(sides.1, &mut || _ = black_box(original(unit)));
    let (by_own, own_stack) = one(sides.0 && fits, &mut || _ = black_box(own(unit, &mut lent)));
    let (by_port, port_stack) = one(sides.0, &mut || _ = black_box(port(unit, &mut lent)));
    assert!(!sides.0 || port(unit, &mut lent) >= 256, "{what}: the port refuses");
    let found = counts(&lent);
    let (tables, answer) = lent.bytes();
    println!(
        "{kind}\t{what}\t{}\t{size}\t{}\t{}\t{references}\t{}\t{}\t{}\t{}\t{}\t{tables}\t{answer}\t{}\t{}\t{}\t{runs}",
        unit.layout(), sizes.entries, found[1], unit.parts[0].len(), found[3], shown(by_port), shown(by_original), shown(by_own),
        shown(port_stack), shown(original_stack), shown(own_stack),
    );
    Some((Times { port: by_port, original: by_original }, references))
}

/// Whether the next size can be called: its time, if it grows as it did last, is not too long.
fn goes_on(before: Option<f64>, now: Option<f64>) -> bool {
    match (before, now) {
        (_, None) => false,
        (None, Some(t)) => t < LONGEST,
        (Some(b), Some(t)) => t * (t / b).max(1.0) < LONGEST,
    }
}

/// A family's unit of a size.
fn grown(what: &str, size: usize, of: Layout) -> Unit {
    let unit = Unit::new(growth::unit(what, size, of).expect("a family"), of.order.is_big_endian());
    Unit { index: growth::index(what, size).unwrap_or(unit.index), ..unit }
}

fn family(what: &str, most: usize, of: Layout) {
    let mut last = Times::default();
    let mut sides = (true, true);
    let mut scale = (0, 1);
    for size in sizes(most) {
        if !sides.0 && !sides.1 {
            return;
        }
        let unit = grown(what, size, of);
        // Without the original to count them, references grow as the size does.
        let scaled = scale.0 * size / scale.1 * 101 / 100 + 300;
        let (times, found) = row("family", what, size, &unit, scaled, sides).expect("an answer");
        sides = (sides.0 && goes_on(last.port, times.port), sides.1 && goes_on(last.original, times.original));
        last = times;
        scale = (found, size);
    }
}

/// What callgrind counts, and after which it writes.
#[no_mangle]
#[inline(never)]
fn bench_measured(call: &mut dyn FnMut()) {
    call()
}

/// Calls of each kind, after one that is not counted; the names tell the order of what callgrind writes.
fn calls(what: &str, size: usize, unit: &Unit) {
    let sizes = sizes_of(unit).expect("a readable unit");
    let Some((mut lent, references)) = prepared(what, unit, &sizes) else { return };
    original(unit);
    println!("calls\t{what}\t{size}\t{}\tport", sizes.entries);
    bench_measured(&mut || _ = black_box(port(unit, &mut lent)));
    println!("calls\t{what}\t{size}\t{}\toriginal", sizes.entries);
    bench_measured(&mut || _ = black_box(original(unit)));
    if sizes.entries <= OWN.0 && references <= OWN.1 {
        println!("calls\t{what}\t{size}\t{}\town", sizes.entries);
        bench_measured(&mut || _ = black_box(own(unit, &mut lent)));
    }
}

fn read(path: &str, big_endian: bool) -> Unit {
    let parts = std::fs::read(path).ok().and_then(|b| unbundle(&b)).unwrap_or_else(|| panic!("{path}: no bundle"));
    Unit::new(half_live(parts), big_endian)
}

fn repeat(side: &str, times: usize, path: &str, big_endian: bool) {
    let unit = &read(path, big_endian);
    let sizes = sizes_of(unit).expect("a readable unit");
    let (mut lent, _) = prepared(path, unit, &sizes).expect("an answer");
    let call: &mut dyn FnMut() = match side {
        "port" => &mut || _ = black_box(port(unit, &mut lent)),
        "own" => &mut || _ = black_box(own(unit, &mut lent)),
        _ => &mut || _ = black_box(original(unit)),
    };
    for _ in 0..times {
        bench_measured(call);
    }
}

fn run(args: &[String]) -> Option<()> {
    let is_word = |a: &&String| a.starts_with("--");
    let (words, args) = args.split_at(args.iter().take_while(is_word).count());
    let [big_endian, wide, older] = ["--big-endian", "--64-bit", "--version-4"].map(|word| words.iter().any(|w| w == word));
    let of = Layout::new(big_endian, wide, older);
    let number = |i: usize| args.get(i).and_then(|n| n.parse::<usize>().ok());
    match args.first()?.as_str() {
        "units" => {
            for path in &args[1..] {
                row("unit", &name(path), 0, &read(path, big_endian), 0, (true, true));
            }
        }
        "families" => {
            let most = number(1)?;
            let named = |f: &str| args.len() == 2 || args[2..].iter().any(|a| a == f);
            FAMILIES.iter().filter(|f| named(f.0)).for_each(|f| family(f.0, most, of));
        }
        "calls" => {
            let size = number(1)?;
            if size > 0 {
                FAMILIES.iter().filter(|f| !QUADRATIC.contains(&f.0)).for_each(|f| calls(f.0, size, &grown(f.0, size, of)));
            }
            args[2..].iter().for_each(|path| calls(&name(path), 0, &read(path, big_endian)));
        }
        "repeat" => repeat(args.get(1)?, number(2)?, args.get(3)?, big_endian),
        _ => return None,
    }
    Some(())
}

fn main() {
    let args: Vec<String> = std::env::args().skip(1).collect();
    // Entry values take stack, of the original more than of the port.
    let size = if args.iter().any(|a| a == "families") { 1 << 30 } else { 1 << 28 };
    let done = std::thread::Builder::new().stack_size(size).spawn(move || run(&args)).expect("a thread").join();
    match done {
        Ok(Some(())) => (),
        Ok(None) => {
            eprintln!("{USAGE}");
            std::process::exit(2)
        }
        Err(_) => std::process::exit(1),
    }
}
