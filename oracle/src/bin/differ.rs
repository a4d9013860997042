//! The port's C call and the original on the same cases, in one process; README.md has the rules. Every result is compared: the number that
//! comes back, counts, map, lists, output, every byte that is lent and not written, and that what is only read stays as it was.

use oracle::cases::{bundle, slices, unbundle, Cases, Dice, Parts, FAMILIES, OF_FILES};
use oracle::expected::{expect, Expected, Plan, Room};
use oracle::judge::{hex, judge, said, unhex, Answer, Outcome, Setting};
use oracle::keep;
use oracle::order::{order, Layout, Order};
use oracle::unit::header;
use std::collections::{BTreeMap, BTreeSet};
use std::fs;
use std::io::{self, Read as _};
use std::panic;
use std::sync::atomic::{AtomicUsize, Ordering};
use std::sync::Mutex;

const USAGE: &str = "usage: differ [--seed N] [--count N] [--threads N] [--blocks] [--quiet | --save FOLDER]
              [--big-endian] [--64-bit] [--version-4] [--fixed-addresses] [--keep-lists] [FAMILY .. | --only-files]
              [-- BUNDLE .. [--big-endian BUNDLE ..]]
       differ --lines [--type-units] [--ranges-base N] [--big-endian] [--fixed-addresses]
              [--tags HEX --treatments HEX] < BUNDLES
So many cases of each family in each byte order of each format of each version (of many a fiftieth, of tables and
damaged-files a fifth); all families if none is named. --big-endian: no little-endian ones; among the bundles: those
behind it are big-endian. --64-bit: none of the 32-bit format, --version-4: none of version 5; bundles tell theirs.
Each case is run with the choice of fixed addresses off, then on, and then with a keep list and the choice off or on;
--fixed-addresses: only on; --keep-lists: only with a list.
--blocks: what is lent is a block of memory of its own, nothing around it. --save: where cases that differ are left;
--quiet: they are only counted. --lines: the port's answer for each of the bundles on standard input.";

extern "C" {
    fn collector_collect(
        section: *const u8, _: usize, abbreviations: *const u8, _: usize, locations: *const u8, _: usize, ranges: *const u8, _: usize,
        addresses: *const u8, _: usize, debug_ranges: *const u8, _: usize, tags: *const u8, _: usize, treatments: *const u8, _: usize,
        ranges_base: u64, type_units: u64, big_endian: u64, fixed_addresses: u64,
        map: *mut u8, _: usize, range_list: *mut u8, _: usize,
        location_list: *mut u8, _: usize, string_list: *mut u8, _: usize, out: *mut u8, _: usize, counts: *mut u8, _: usize,
    ) -> u64;
    fn collector_collect_lent(
        section: *const u8, _: usize, abbreviations: *const u8, _: usize, locations: *const u8, _: usize, ranges: *const u8, _: usize,
        addresses: *const u8, _: usize, debug_ranges: *const u8, _: usize, tags: *const u8, _: usize, treatments: *const u8, _: usize,
        ranges_base: u64, type_units: u64, big_endian: u64, fixed_addresses: u64,
        index: *mut u64, _: usize, offsets: *mut u64, _: usize,
        parents: *mut u64, _: usize, roots: *mut u8, _: usize, ends: *mut u64, _: usize, marks: *mut u8, _: usize, targets: *mut u64, _: usize,
        pairs: *mut u64, _: usize, work: *mut u32, _: usize, map: *mut u8, _: usize,
        range_list: *mut u8, _: usize, location_list: *mut u8, _: usize, string_list: *mut u8, _: usize, out: *mut u8, _: usize,
        counts: *mut u8, _: usize,
    ) -> u64;
}

/// Entries and references of the C call's own tables, and bytes of the counts.
const OWN: (usize, usize) = (2048, 8192);
const COUNTS: usize = 59;
/// Bytes of a place of the map.
const PLACE: usize = 24;

/// Elements that are lent, with others before and behind that stay as they were.
struct Lent<T> {
    cells: Vec<T>,
    around: usize,
    fill: T,
}

impl<T: Copy + PartialEq + Default> Lent<T> {
    fn new(length: usize, around: usize, fill: T) -> Self {
        Lent { cells: vec![fill; length + 2 * around], around, fill }
    }

    fn of(held: &[T], around: usize, fill: T) -> Self {
        let mut lent = Lent::new(held.len(), around, fill);
        lent.cells[around..around + held.len()].copy_from_slice(held);
        lent
    }

    fn length(&self) -> usize {
        self.cells.len() - 2 * self.around
    }

    fn start(&mut self) -> *mut T {
        self.cells[self.around..].as_mut_ptr()
    }

    fn inside(&self) -> &[T] {
        &self.cells[self.around..self.cells.len() - self.around]
    }

    fn around_kept(&self) -> bool {
        let same = |part: &[T]| part.iter().all(|c| *c == self.fill);
        same(&self.cells[..self.around]) && same(&self.cells[self.cells.len() - self.around..])
    }

    /// Whether these elements come first and zeros after them.
    fn holds(&self, first: &[T]) -> bool {
        let inside = self.inside();
        inside.len() >= first.len()
            && inside[..first.len()] == *first
            && inside[first.len()..].iter().all(|c| *c == T::default())
    }
}

/// Lengths of what is lent: bytes of the map, the lists, the output and the counts; elements of the tables, or none for the call with its own.
#[derive(Clone, Debug)]
struct Lengths {
    map: usize,
    lists: [usize; 3],
    output: usize,
    counts: usize,
    /// index, offsets, parents, roots, ends, marks, targets, pairs, and work where the call takes it.
    tables: Option<[usize; 9]>,
}

impl Lengths {
    fn room(&self) -> Room {
        let (entries, references) = match &self.tables {
            None => OWN,
            Some(t) => (*t[1..6].iter().min().unwrap(), t[6].min(t[7] / 2)),
        };
        Room { entries, references, map: self.map / PLACE, lists: self.lists.map(|l| l / 8), output: self.output }
    }
}

/// What every lent part must hold after a call that ends so.
struct Contents {
    number: u64,
    map: Vec<u8>,
    lists: [Vec<u8>; 3],
    output: Vec<u8>,
    counts: Vec<u8>,
}

fn contents(answer: Result<&Plan, u8>, counts: usize) -> Contents {
    let plan = match answer {
        Err(n) => return Contents { number: n.into(), map: vec![], lists: Default::default(), output: vec![], counts: vec![] },
        Ok(plan) => plan,
    };
    let output = plan.output.as_ref().expect("an accepted unit");
    let list = |i: usize| -> Vec<u8> { plan.lists[i].iter().flatten().flat_map(|n| n.to_be_bytes()).collect() };
    let mut held = Vec::new();
    let lengths = [0, 1, 2].map(|i: usize| plan.lists[i].as_ref().map_or(0, BTreeSet::len));
    for n in [plan.entries, plan.kept, plan.map.len(), output.len(), lengths[0], lengths[1], lengths[2]] {
        held.extend((n as u64).to_be_bytes());
    }
    held.extend(plan.lists.iter().map(|l| u8::from(l.is_some())));
    let room = counts >= COUNTS;
    Contents {
        number: 256 + u64::from(plan.dead) + if room { 0 } else { 2 },
        map: plan.map.iter().flat_map(|p| [p.0, p.1, p.2]).flat_map(|n| (n as u64).to_be_bytes()).collect(),
        lists: [list(0), list(1), list(2)],
        output: output.clone(),
        counts: if room { held } else { vec![] },
    }
}

/// What the port left behind.
struct Left {
    number: u64,
    map: Lent<u8>,
    lists: [Lent<u8>; 3],
    output: Lent<u8>,
    counts: Lent<u8>,
    /// What changed that must not, or is not zero that must be.
    wrong: Option<&'static str>,
}

/// How a call is made, beyond what it is about.
#[derive(Clone, Copy)]
struct Manner {
    around: usize,
    fill: u8,
    /// The number that says yes, of type units, of big-endian and of fixed addresses.
    yes: [u64; 3],
}

fn call(parts: &Parts, setting: Setting<'_>, lengths: &Lengths, manner: Manner) -> Left {
    let Manner { around, fill, yes } = manner;
    let bytes = |n: usize| Lent::new(n, around, fill);
    let read: Vec<&[u8]> = parts.iter().map(|p| &p[..]).chain([setting.keep.tags, setting.keep.treatments]).collect();
    let mut s: Vec<Lent<u8>> = read.iter().map(|p| Lent::of(p, around, fill)).collect();
    let (mut map, mut output, mut counts) = (bytes(lengths.map), bytes(lengths.output), bytes(lengths.counts));
    let mut lists = lengths.lists.map(bytes);
    let base = setting.ranges_base as u64;
    let told = [(setting.type_units, yes[0]), (setting.big_endian, yes[1]), (setting.fixed_addresses, yes[2])];
    let [units, big, fixed] = told.map(|(is, yes)| if is { yes } else { 0 });
    let mut wrong = None;
    macro_rules! lend {
        ($f:ident, $s:ident, [$($t:expr),*]) => {
            unsafe {
                $f(
                    $s[0].start(), $s[0].length(), $s[1].start(), $s[1].length(), $s[2].start(), $s[2].length(), $s[3].start(), $s[3].length(),
                    $s[4].start(), $s[4].length(), $s[5].start(), $s[5].length(), $s[6].start(), $s[6].length(), $s[7].start(), $s[7].length(),
                    base, units, big, fixed,
                    $($t.start(), $t.length(),)* map.start(), map.length(),
                    lists[0].start(), lists[0].length(), lists[1].start(), lists[1].length(), lists[2].start(), lists[2].length(),
                    output.start(), output.length(), counts.start(), counts.length(),
                )
            }
        };
    }
    let number = match &lengths.tables {
        None => lend!(collector_collect, s, []),
        Some(t) => {
            let wide = |n: usize| Lent::new(n, around.div_ceil(8), u64::from_ne_bytes([fill; 8]));
            let half = |n: usize| Lent::new(n, around.div_ceil(4), u32::from_ne_bytes([fill; 4]));
            let (mut index, mut offsets, mut parents, mut roots, mut ends) = (wide(t[0]), wide(t[1]), wide(t[2]), bytes(t[3]), wide(t[4]));
            let (mut marks, mut targets, mut pairs, mut work) = (bytes(t[5]), wide(t[6]), wide(t[7]), half(t[8]));
            let number = lend!(collector_collect_lent, s, [index, offsets, parents, roots, ends, marks, targets, pairs, work]);
            macro_rules! check {
                ($($t:ident),*) => {
                    $(
                        if !$t.holds(&[]) {
                            wrong = Some(concat!("not zeros: ", stringify!($t)));
                        }
                        if !$t.around_kept() {
                            wrong = Some(concat!("written beside: ", stringify!($t)));
                        }
                    )*
                };
            }
            check!(index, offsets, parents, roots, ends, marks, targets, pairs, work);
            number
        }
    };
    if s.iter().zip(read).any(|(l, p)| l.inside() != p || !l.around_kept()) {
        wrong = Some("a section or the keep list changed");
    }
    if [&map, &output, &counts, &lists[0], &lists[1], &lists[2]].iter().any(|l| !l.around_kept()) {
        wrong = Some("written beside what is lent");
    }
    Left { number, map, lists, output, counts, wrong }
}

/// The first thing that is not as it must be.
fn compare(left: &Left, must: &Contents) -> Option<String> {
    if left.number != must.number {
        return Some(format!("answered {}, expected {}", left.number, must.number));
    }
    let parts = [
        ("counts", &left.counts, &must.counts),
        ("map", &left.map, &must.map),
        ("ranges", &left.lists[0], &must.lists[0]),
        ("locations", &left.lists[1], &must.lists[1]),
        ("strings", &left.lists[2], &must.lists[2]),
        ("output", &left.output, &must.output),
    ];
    for (name, found, held) in parts {
        if !found.holds(held) {
            return Some(format!("{name}: {} expected, and zeros; found {}", hex(held), hex(found.inside())));
        }
    }
    left.wrong.map(str::to_string)
}

/// What the answer needs, or nothing where the reading refuses.
fn needs(expected: &Expected) -> (usize, [usize; 3], usize) {
    match &expected.read {
        Err(_) => (0, [0; 3], 0),
        Ok(p) => (PLACE * p.map.len(), [0, 1, 2].map(|i: usize| 8 * p.lists[i].as_ref().map_or(0, BTreeSet::len)), p.size),
    }
}

/// Exactly what is needed, or more.
fn enough(dice: &mut Dice, expected: &Expected) -> Lengths {
    let (map, lists, output) = needs(expected);
    let exact = dice.rare(2);
    let mut more = |n: usize| if exact { n } else { n + dice.of(&[0, 1, 7, 8, 12, 23, 24, 40]) };
    let lengths = Lengths { map: more(map), lists: lists.map(&mut more), output: more(output), counts: COUNTS, tables: None };
    // Tables of the caller's sometimes, and mostly where the call's own would be full.
    let references = expected.references.iter().sum();
    let full = expected.met > OWN.0 || references > OWN.1;
    let lent = if full { !dice.rare(4) } else { dice.rare(8) };
    let tables = lent.then(|| tables(dice, expected.met, references));
    Lengths { counts: COUNTS + dice.of(&[0, 0, 0, 1, 9]), tables, ..lengths }
}

/// Lent tables with room for just so many.
fn tables(dice: &mut Dice, entries: usize, references: usize) -> [usize; 9] {
    let mut lengths = [0; 9];
    let least = 1 + dice.below(5);
    for (i, l) in lengths.iter_mut().enumerate().take(6).skip(1) {
        *l = entries + if i == least { 0 } else { dice.of(&[0, 0, 1, 5]) };
    }
    let by_pairs = dice.rare(2);
    lengths[6] = references + if by_pairs { dice.below(3) } else { 0 };
    lengths[7] = 2 * references + if by_pairs { dice.below(2) } else { dice.below(5) };
    lengths[0] = dice.of(&[0, 1, 2, 5, 20, 200]);
    lengths[8] = dice.of(&[0, 1, entries / 2, 2 * entries, 2 * entries + 3]);
    lengths
}

/// What is lent in the second call: one or several things short, tables of its own, counts without room.
fn varied(dice: &mut Dice, expected: &Expected) -> Lengths {
    let (map, lists, output) = needs(expected);
    let mut lengths = enough(dice, expected);
    let less = |dice: &mut Dice, n: usize| match dice.below(6) {
        0 => dice.below(n + 1),
        1 => 0,
        _ => n.saturating_sub(1),
    };
    let kind = dice.below(8);
    let short = match kind {
        0 => 1 << 3,
        1 => 1 << 4,
        2 | 3 => 1 << dice.below(3),
        4 => dice.below(32),
        _ => 0,
    };
    for i in 0..3 {
        if short >> i & 1 == 1 {
            lengths.lists[i] = less(dice, lists[i]);
        }
    }
    if short >> 3 & 1 == 1 {
        lengths.map = less(dice, map);
    }
    if short >> 4 & 1 == 1 {
        lengths.output = less(dice, output);
    }
    if kind >= 4 {
        let met = expected.met;
        let references: usize = expected.references.iter().sum();
        let (entries, references) = match dice.below(6) {
            0 => (met, references),
            1 | 2 => (met.saturating_sub(1), references),
            3 | 4 => (met + dice.below(2), references.saturating_sub(1)),
            _ => (dice.below(met + 2), dice.below(references + 2)),
        };
        lengths.tables = Some(tables(dice, entries, references));
    }
    if dice.rare(6) {
        lengths.counts = dice.below(COUNTS);
    }
    lengths
}

/// How one case ended.
#[derive(Default)]
struct Ended {
    /// Of the first call, nothing being short: the answer's name.
    first: String,
    /// Of the second call.
    second: String,
    /// The listed differences, where the two answer otherwise.
    listed: Option<String>,
    different: Option<String>,
    /// Whether the address table is empty, and whether the original asked for an index then.
    empty: bool,
    asked: bool,
    /// What the original answered.
    line: String,
}

fn name(answer: Result<&Plan, u8>) -> String {
    match answer {
        Err(n) => n.to_string(),
        Ok(plan) => if plan.dead { "rewritten" } else { "untouched" }.to_string(),
    }
}

/// One case; a panic, which neither side may show here, is a difference.
fn one(parts: &Parts, setting: Setting<'_>, seed: u64, blocks: bool) -> Ended {
    panic::catch_unwind(|| compared(parts, setting, seed, blocks))
        .unwrap_or_else(|p| Ended { different: Some(format!("panic: {}", said(p))), ..Ended::default() })
}

/// The original, what follows from it, and two calls of the port.
fn compared(parts: &Parts, setting: Setting<'_>, seed: u64, blocks: bool) -> Ended {
    let judged = judge(slices(parts), setting);
    let expected = expect(slices(parts), setting, &judged);
    let dice = &mut Dice(seed);
    let empty = parts[4].is_empty();
    let mut ended = Ended { empty, asked: empty && judged.asked > 0, line: judged.line(), ..Ended::default() };
    let names: Vec<&str> = expected.rules.iter().copied().collect();
    if !expected.is(&judged, &parts[0], setting.order()) {
        match names.is_empty() {
            true => ended.different = Some(format!("the original answers otherwise, and no rule matches: {}", judged.line())),
            false => ended.listed = Some(names.join(",")),
        }
    }
    for second in [false, true] {
        let lengths = if second { varied(dice, &expected) } else { enough(dice, &expected) };
        let manner = Manner {
            around: if blocks { 0 } else { 16 },
            fill: dice.of(&[0xa5, 0x5a, 0xff, 0x01, 0x80]),
            yes: [true, true, setting.fixed_addresses].map(|said| if said { dice.of(&[1, 1, 2, 256, 1 << 32, u64::MAX]) } else { 0 }),
        };
        let answer = expected.answer(&lengths.room());
        let left = call(parts, setting, &lengths, manner);
        if let Some(what) = compare(&left, &contents(answer, lengths.counts)) {
            ended.different.get_or_insert(format!("{what}; lent {lengths:?}"));
        }
        if second {
            ended.second = name(answer);
        } else {
            ended.first = name(answer);
        }
    }
    ended
}

/// A case under the other byte order than its own. Where its header is right in its own, both sides have to refuse the header.
fn told_wrongly(parts: &Parts, with: Setting<'_>, seed: u64, blocks: bool) -> Ended {
    let told = Setting { big_endian: !with.big_endian, ..with };
    let mut ended = one(parts, told, seed, blocks);
    if header(&parts[0], with.order()) == 0 {
        let original = judge(slices(parts), told);
        if !matches!(original.outcome, Outcome::Error(Some(1), _)) {
            ended.different.get_or_insert(format!("the original reads it in both byte orders: {}", original.line()));
        }
        if [&ended.first, &ended.second].iter().any(|n| *n != "1" && *n != "2") {
            ended.different.get_or_insert(format!("in the other byte order {} and {}, not 1 or 2", ended.first, ended.second));
        }
    }
    ended
}

/// The setting of a case: mostly as the program has it.
fn setting(dice: &mut Dice, layout: Layout) -> Setting<'static> {
    let ranges_base = match dice.below(24) {
        0 => dice.below(40),
        1 => layout.version() + 8,
        2 => (dice.next() >> dice.below(64)) as usize,
        3 => usize::MAX - dice.below(40),
        _ => 0,
    };
    Setting { type_units: dice.rare(8), ranges_base, big_endian: layout.order == Order::Big, ..Setting::default() }
}

/// An address table, not empty, that fails from some place on: it ends there, or holds bytes above 1.
fn spoil(dice: &mut Dice, table: &mut Vec<u8>) {
    let place = dice.below(table.len());
    if place > 0 && dice.rare(2) { table.truncate(place) } else { table[place..].fill(dice.of(&[2, 0x80, 0xff])) }
}

/// What the ranges' sections need to be told apart: one case in four has bytes in the section of the other version,
/// which nobody may read, and where a ranges base is within 64 bytes, .debug_ranges mostly has as many bytes before its
/// lists.
fn other_ranges(dice: &mut Dice, layout: Layout, base: usize, parts: &mut Parts) {
    if dice.rare(4) && parts[layout.unread()].is_empty() {
        let length = dice.of(&[1, 2, 16, 40]);
        // What both sections read as a list without a live entry, as one with a live entry, and as none.
        let byte = dice.of(&[0, 0x11, 0xff]);
        parts[layout.unread()] = if dice.rare(3) { dice.bytes(length) } else { vec![byte; length] };
    }
    if layout.older && base < 64 && !dice.rare(4) {
        let before = dice.bytes(base);
        parts[5].splice(0..0, before);
    }
}

/// Smaller parts that still differ: shorter, then with more zeros.
fn reduced(parts: &Parts, with: Setting<'_>, seed: u64, blocks: bool) -> Parts {
    let mut best = parts.clone();
    let mut tries = 0;
    let mut again = true;
    while again && tries < 20_000 {
        again = false;
        for part in 0..parts.len() {
            let mut size = best[part].len();
            while size > 0 {
                let mut at = 0;
                while at + size <= best[part].len() && tries < 20_000 {
                    let mut shorter = best.clone();
                    shorter[part].drain(at..at + size);
                    let mut fitted = shorter.clone();
                    Layout::of(with.order(), &fitted[0]).fit(&mut fitted[0]);
                    tries += 2;
                    if let Some(p) = [fitted, shorter].into_iter().find(|p| one(p, with, seed, blocks).different.is_some()) {
                        best = p;
                        again = true;
                    } else {
                        at += size;
                    }
                }
                size /= 2;
            }
            for at in 0..best[part].len() {
                for byte in [0, 1] {
                    if best[part][at] > byte && tries < 20_000 {
                        let mut other = best.clone();
                        other[part][at] = byte;
                        tries += 1;
                        if one(&other, with, seed, blocks).different.is_some() {
                            best = other;
                            again = true;
                            break;
                        }
                    }
                }
            }
        }
    }
    best
}

/// A shorter keep list with which the parts still differ: pair by pair, then a byte.
fn reduced_list(parts: &Parts, with: Setting<'_>, seed: u64, blocks: bool) -> keep::Owned {
    let mut best = keep::Owned { tags: with.keep.tags.to_vec(), treatments: with.keep.treatments.to_vec() };
    let mut size = best.treatments.len();
    while size > 0 {
        let mut at = 0;
        while at < best.treatments.len() {
            let mut shorter = best.clone();
            shorter.tags.drain((2 * at).min(best.tags.len())..(2 * (at + size)).min(best.tags.len()));
            shorter.treatments.drain(at..(at + size).min(best.treatments.len()));
            if one(parts, Setting { keep: shorter.lent(), ..with }, seed, blocks).different.is_some() {
                best = shorter;
            } else {
                at += size;
            }
        }
        size /= 2;
    }
    best
}

/// Counts of a family.
#[derive(Default)]
struct Tally {
    cases: usize,
    /// By the port's answer in the first call, and in the second.
    first: BTreeMap<String, usize>,
    second: BTreeMap<String, usize>,
    listed: BTreeMap<String, usize>,
    different: usize,
    /// With an empty address table, and those of them in which an index was asked for.
    empty: usize,
    asked: usize,
    /// Told the other byte order, by the port's answer. These are no cases.
    told: BTreeMap<String, usize>,
    /// With the choice of fixed addresses on: by the port's answer off and on, where the original's is another. With a keep list: by the
    /// answer without one and with it.
    otherwise: BTreeMap<String, usize>,
    /// Keep lists, by what they are.
    lists: BTreeMap<String, usize>,
}

impl Tally {
    fn add(&mut self, ended: &Ended) {
        self.cases += 1;
        self.empty += usize::from(ended.empty);
        self.asked += usize::from(ended.asked);
        *self.first.entry(ended.first.clone()).or_default() += 1;
        *self.second.entry(ended.second.clone()).or_default() += 1;
        if ended.different.is_some() {
            self.different += 1;
        } else if let Some(rules) = &ended.listed {
            *self.listed.entry(rules.clone()).or_default() += 1;
        }
    }

    /// Where the answer is another than it was.
    fn add_other(&mut self, before: &Ended, now: &Ended) {
        if before.line != now.line {
            *self.otherwise.entry(format!("{} to {}", before.first, now.first)).or_default() += 1;
        }
    }

    fn add_list(&mut self, list: keep::KeepList<'_>) {
        let kinds = [
            ("empty", list.tags.len() < 2 && list.treatments.is_empty()),
            ("with half a tag", list.tags.len() % 2 == 1),
            ("of every tag", list.refusal().is_none() && list.treatments.len() == 1 << 16),
            ("out of order and refused by 19", list.refusal() == Some(19) && list.is_out_of_order()),
        ];
        for (kind, _) in kinds.iter().filter(|k| k.1) {
            *self.lists.entry(kind.to_string()).or_default() += 1;
        }
    }

    fn add_told(&mut self, ended: &Ended) {
        *self.told.entry(ended.first.clone()).or_default() += 1;
        self.different += usize::from(ended.different.is_some());
    }

    fn merge(&mut self, other: &Tally) {
        self.cases += other.cases;
        self.different += other.different;
        self.empty += other.empty;
        self.asked += other.asked;
        let counts = [
            (&mut self.first, &other.first),
            (&mut self.second, &other.second),
            (&mut self.listed, &other.listed),
            (&mut self.told, &other.told),
            (&mut self.otherwise, &other.otherwise),
            (&mut self.lists, &other.lists),
        ];
        for (into, from) in counts {
            for (k, n) in from {
                *into.entry(k.clone()).or_default() += n;
            }
        }
    }
}

struct Options {
    seed: u64,
    count: usize,
    threads: usize,
    blocks: bool,
    /// Differences are only counted.
    quiet: bool,
    save: String,
    /// No case with the choice of fixed addresses off.
    only_fixed: bool,
    /// No case without a keep list.
    only_lists: bool,
}

/// The byte orders, formats and versions, and their names.
const LAYOUTS: [(Layout, &str); 8] = [
    (Layout { order: Order::Little, wide: false, older: false }, "32-bit little-endian"),
    (Layout { order: Order::Big, wide: false, older: false }, "32-bit big-endian"),
    (Layout { order: Order::Little, wide: true, older: false }, "64-bit little-endian"),
    (Layout { order: Order::Big, wide: true, older: false }, "64-bit big-endian"),
    (Layout { order: Order::Little, wide: false, older: true }, "version 4 32-bit little-endian"),
    (Layout { order: Order::Big, wide: false, older: true }, "version 4 32-bit big-endian"),
    (Layout { order: Order::Little, wide: true, older: true }, "version 4 64-bit little-endian"),
    (Layout { order: Order::Big, wide: true, older: true }, "version 4 64-bit big-endian"),
];

/// A family in a byte order, a format and a version, of LAYOUTS.
#[derive(Clone, Copy)]
struct Group<'a> {
    family: &'a str,
    which: usize,
    given: &'a [Parts],
}

impl Group<'_> {
    fn layout(&self) -> Layout {
        LAYOUTS[self.which].0
    }

    fn cases(&self, seed: u64) -> Option<Cases<'_>> {
        Cases::new(self.family, seed, self.layout(), self.given)
    }

    fn name(&self) -> String {
        format!("{} {}", self.family, LAYOUTS[self.which].1)
    }
}

/// Which case each thread is at, for one that ends the process.
static AT: [AtomicUsize; 8] = [const { AtomicUsize::new(0) }; 8];

/// The counts with the choice of fixed addresses off, on, and with keep lists.
fn run_part(group: Group, options: &Options, thread: usize, saved: &Mutex<usize>) -> [Tally; 3] {
    let (mut tally, mut fixed, mut listed) = (Tally::default(), Tally::default(), Tally::default());
    let family = group.family;
    let Some(mut cases) = group.cases(options.seed) else { return [tally, fixed, listed] };
    // Large units: fewer.
    let count = match family {
        "many" => options.count.div_ceil(50),
        "tables" | "damaged-files" => options.count.div_ceil(5),
        _ => options.count,
    };
    for i in 0..count {
        let mine = i % options.threads == thread;
        if !mine && family != "small" {
            continue;
        }
        let mut parts = cases.case(i);
        if !mine {
            continue;
        }
        AT[thread].store(i, Ordering::Relaxed);
        let mut dice = Dice(options.seed.wrapping_mul(0x9e37_79b9).wrapping_add(i as u64) << 7 ^ family.len() as u64);
        let with = setting(&mut dice, group.layout());
        let seed = dice.next();
        other_ranges(&mut dice, group.layout(), with.ranges_base, &mut parts);
        let mut tables = vec![parts[4].clone()];
        if family != "small" {
            match dice.below(8) {
                0 => tables[0].clear(),
                1 | 2 if !tables[0].is_empty() => spoil(&mut dice, &mut tables[0]),
                _ => {}
            }
        } else if parts[4] == [0, 0] {
            // A body of `small` comes with its four tables, and (beside the first) with none and with three that fail.
            tables.extend([vec![], vec![1], vec![2], vec![1, 2]]);
        }
        let wrongly = dice.rare(8);
        let mut list_dice = Dice(!seed ^ (group.which as u64) << 32);
        let note = |ended: &Ended, parts: &Parts, with: Setting<'_>| {
            let Some(what) = &ended.different else { return };
            let mut saved = saved.lock().unwrap();
            *saved += 1;
            if *saved <= 20 && !options.quiet {
                report(group, i, parts, with, seed, what, options);
            }
        };
        for table in tables {
            parts[4] = table;
            let off = (!options.only_fixed && !options.only_lists).then(|| one(&parts, with, seed, options.blocks));
            if let Some(off) = &off {
                tally.add(off);
                note(off, &parts, with);
            }
            let chosen = Setting { fixed_addresses: true, ..with };
            let on = (!options.only_lists).then(|| one(&parts, chosen, seed, options.blocks));
            if let Some(on) = &on {
                fixed.add(on);
                note(on, &parts, chosen);
                off.iter().for_each(|off| fixed.add_other(off, on));
            }
            let list = keep::diced(&mut list_dice, &parts, with.order());
            let is_on = list_dice.rare(2) || options.only_fixed;
            let kept = Setting { fixed_addresses: is_on, keep: list.lent(), ..with };
            let ended = one(&parts, kept, seed, options.blocks);
            listed.add(&ended);
            listed.add_list(kept.keep);
            note(&ended, &parts, kept);
            if let Some(without) = if is_on { &on } else { &off } {
                listed.add_other(without, &ended);
            }
        }
        if wrongly && !parts[0].is_empty() && !options.only_fixed && !options.only_lists {
            let layout = Layout::of(with.order(), &parts[0]);
            if dice.rare(4) && !layout.wide && header(&parts[0], with.order()) == 0 {
                // A length that is the same in both byte orders, so that the version alone tells them apart. One of eight bytes that is
                // the same in both is above 2^32.
                parts[0].resize(4 + 0x10100, 0);
                layout.fit(&mut parts[0]);
            }
            let ended = told_wrongly(&parts, with, seed, options.blocks);
            tally.add_told(&ended);
            note(&ended, &parts, Setting { big_endian: !with.big_endian, ..with });
        }
    }
    [tally, fixed, listed]
}

fn report(group: Group, i: usize, parts: &Parts, with: Setting<'_>, seed: u64, what: &str, options: &Options) {
    let given = with;
    let list = reduced_list(parts, with, seed, options.blocks);
    let with = Setting { keep: list.lent(), ..given };
    let small = reduced(parts, with, seed, options.blocks);
    let why = one(&small, with, seed, options.blocks).different.unwrap_or_default();
    let text = format!(
        "{} seed {} case {i} {given:?}\n  {what}\nreduced\n  keep list {:?}\n  unit {}\n  abbreviations {}\n  locations {}\n  ranges {}\n  addresses {}\n  \
         older ranges {}\n  {why}\n  original: {}\n",
        group.name(), options.seed, with.keep, hex(&small[0]), hex(&small[1]), hex(&small[2]), hex(&small[3]), hex(&small[4]), hex(&small[5]),
        judge(slices(&small), with).line(),
    );
    println!("{text}");
    let path = format!("{}/{}-{}-{i}", options.save, group.name().replace(' ', "-"), options.seed);
    let _ = fs::create_dir_all(&options.save);
    let _ = fs::write(format!("{path}.bundle"), bundle(parts));
    let _ = fs::write(format!("{path}.reduced.bundle"), bundle(&small));
    let _ = fs::write(format!("{path}.txt"), text);
}

const FIRST: [&str; 14] = ["rewritten", "untouched", "1", "2", "3", "4", "5", "6", "17", "7", "8", "9", "10", "11"];
const SECOND: [&str; 5] = ["10", "11", "12", "13", "14"];
/// Of keep lists.
const REFUSED: [&str; 2] = ["19", "20"];

fn row(name: &str, tally: &Tally, refused: &[&str]) -> String {
    let of = |counts: &BTreeMap<String, usize>, k: &str| counts.get(k).copied().unwrap_or(0);
    let mut cells = vec![name.to_string(), tally.cases.to_string()];
    cells.extend(FIRST.iter().chain(refused).map(|k| of(&tally.first, k).to_string()));
    cells.extend(SECOND.iter().map(|k| of(&tally.second, k).to_string()));
    cells.push(tally.listed.values().sum::<usize>().to_string());
    cells.push(tally.different.to_string());
    format!("| {} |", cells.join(" | "))
}

/// A table of rows; with the choice of fixed addresses on, and with keep lists, one column more.
fn table(rows: &[String], refused: &[&str], more: &[&str]) {
    let first = [&FIRST[..], refused].concat();
    let columns = [&["listed", "different"], more].concat();
    println!("| family | cases | {} | then {} | {} |", first.join(" | "), SECOND.join(" | "), columns.join(" | "));
    println!("|{}", "---|".repeat(2 + first.len() + SECOND.len() + columns.len()));
    for row in rows {
        println!("{row}");
    }
    println!();
}

/// A row of the table with fixed addresses, or of that with keep lists: last in how many cases the answer is another than without.
fn other_row(name: &str, tally: &Tally, refused: &[&str]) -> String {
    format!("{} {} |", row(name, tally, refused), tally.otherwise.values().sum::<usize>())
}

fn counts(of: &BTreeMap<String, usize>) -> String {
    of.iter().map(|(k, n)| format!("{k} {n}")).collect::<Vec<_>>().join(", ")
}

/// Counts of cases that are run in another way too: by family, and by byte order, format and version.
#[derive(Default)]
struct Others<'a> {
    families: Vec<(&'a str, Tally)>,
    layouts: [Tally; LAYOUTS.len()],
}

impl<'a> Others<'a> {
    fn merge(&mut self, group: &Group<'a>, tally: Tally) {
        self.layouts[group.which].merge(&tally);
        match self.families.last_mut() {
            Some((last, held)) if *last == group.family => held.merge(&tally),
            _ => self.families.push((group.family, tally)),
        }
    }

    /// Prints the table; the counts of all.
    fn table(&self, refused: &[&str]) -> Tally {
        let mut total = Tally::default();
        let mut rows: Vec<String> = self.families.iter().map(|(family, tally)| other_row(family, tally, refused)).collect();
        for ((_, name), tally) in LAYOUTS.iter().zip(&self.layouts) {
            rows.push(other_row(&format!("all {name}"), tally, refused));
            total.merge(tally);
        }
        rows.push(other_row("all", &total, refused));
        table(&rows, refused, &["otherwise"]);
        total
    }
}

fn run(groups: &[Group], options: &Options) -> bool {
    let (mut rows, mut empty) = (Vec::new(), Vec::new());
    let mut tallies: [Tally; LAYOUTS.len()] = Default::default();
    // With the choice of fixed addresses on, and with keep lists.
    let (mut on, mut kept) = (Others::default(), Others::default());
    let saved = Mutex::new(0);
    for group in groups {
        let started = std::time::Instant::now();
        let (mut tally, mut fixed, mut listed) = (Tally::default(), Tally::default(), Tally::default());
        std::thread::scope(|scope| {
            let saved = &saved;
            let parts: Vec<_> = (0..options.threads)
                .map(|t| {
                    // Entry values may nest as deep as a bundle has bytes, and the walks are recursive.
                    let builder = std::thread::Builder::new().stack_size(1 << 29);
                    builder.spawn_scoped(scope, move || run_part(*group, options, t, saved)).expect("a thread")
                })
                .collect();
            for part in parts {
                match part.join() {
                    Ok(counted) => {
                        for (into, from) in [&mut tally, &mut fixed, &mut listed].into_iter().zip(&counted) {
                            into.merge(from);
                        }
                    }
                    Err(p) => {
                        println!("{}: {} (about case {:?})", group.name(), said(p), AT[0]);
                        tally.different += 1;
                    }
                }
            }
        });
        let name = group.name();
        let others = [other_row("", &fixed, &[]), other_row("", &listed, &REFUSED)];
        eprintln!("{} and on {} and with keep lists {} {:?}", row(&name, &tally, &[]), others[0], others[1], started.elapsed());
        rows.push(row(&name, &tally, &[]));
        empty.push(format!("{name} {} {}", tally.empty, tally.asked));
        tallies[group.which].merge(&tally);
        on.merge(group, fixed);
        kept.merge(group, listed);
    }
    let mut total = Tally::default();
    for ((_, name), tally) in LAYOUTS.iter().zip(&tallies) {
        rows.push(row(&format!("all {name}"), tally, &[]));
        total.merge(tally);
    }
    rows.push(row("all", &total, &[]));
    table(&rows, &[], &[]);
    println!("with the choice of fixed addresses on, and last how many answers are others than with it off:");
    let fixed = on.table(&[]);
    println!("otherwise, by the answers off and on: {}", counts(&fixed.otherwise));
    println!();
    println!("with keep lists, and last how many answers are others than without:");
    let listed = kept.table(&REFUSED);
    println!("otherwise, by the answers without a list and with it: {}", counts(&listed.otherwise));
    println!("lists: {}", counts(&listed.lists));
    println!();
    let mut by_rule: BTreeMap<&str, usize> = BTreeMap::new();
    for (rules, n) in &total.listed {
        for rule in rules.split(',') {
            *by_rule.entry(rule).or_default() += n;
        }
    }
    let by_rule = by_rule.into_iter().map(|(rule, n)| (rule.to_string(), n)).collect();
    println!("listed, by rule (several may match a case): {}", counts(&by_rule));
    println!("empty address tables, and those in which an index was asked for: {}, all {} {}", empty.join(", "), total.empty, total.asked);
    for ((_, name), tally) in LAYOUTS.iter().zip(&tallies) {
        let told = counts(&tally.told);
        println!("{name}: {} cases, {} different; and told the other byte order, by answer: {told}", tally.cases, tally.different);
    }
    println!("fixed addresses: {} cases, {} different", fixed.cases, fixed.different);
    println!("keep lists: {} cases, {} different", listed.cases, listed.different);
    total.merge(&fixed);
    total.merge(&listed);
    println!("differ: {} cases, {} different", total.cases, total.different);
    total.different == 0
}

/// The port's answer in words, with room for everything.
fn line(parts: &Parts, with: Setting<'_>) -> String {
    let size = parts[0].len() + 1;
    let lengths = Lengths { map: PLACE * size, lists: [8 * size; 3], output: size, counts: COUNTS, tables: None };
    let left = call(parts, with, &lengths, Manner { around: 16, fill: 0xa5, yes: [1; 3] });
    if let Some(wrong) = left.wrong {
        return format!("wrong: {wrong}");
    }
    let number = |bytes: &[u8]| bytes.iter().fold(0u64, |n, b| n << 8 | u64::from(*b));
    if left.number < 256 {
        return format!("refused {}", left.number);
    }
    let count = |i: usize| number(&left.counts.inside()[8 * i..8 * i + 8]) as usize;
    let list = |i: usize| {
        let numbers = left.lists[i].inside()[..8 * count(4 + i)].chunks(8).map(number).collect();
        (left.counts.inside()[56 + i] == 1).then_some(numbers)
    };
    let answer = Answer {
        rewritten: (left.number == 257).then(|| left.output.inside()[..count(3)].to_vec()),
        map: left.map.inside()[..PLACE * count(2)]
            .chunks(PLACE)
            .map(|p| (number(&p[..8]) as usize, number(&p[8..16]) as usize, number(&p[16..]) as usize))
            .collect(),
        lists: [list(0), list(1), list(2)],
    };
    let kind = if left.number == 257 { "rewritten" } else { "untouched" };
    format!("{kind} entries {} kept {} {}", count(0), count(1), answer.shown())
}

fn lines(with: Setting<'_>) -> io::Result<()> {
    let mut all = Vec::new();
    io::stdin().read_to_end(&mut all)?;
    let mut rest = &all[..];
    while let Some((length, after)) = rest.split_first_chunk::<4>() {
        let size = u32::from_be_bytes(*length) as usize;
        let parts = after.get(..size).and_then(|_| unbundle(&rest[..4 + size]));
        println!("{}", parts.as_ref().map_or("bundle".to_string(), |p| line(p, with)));
        rest = after.get(size..).unwrap_or(&[]);
    }
    Ok(())
}

/// Says where a call that ends the process was; the case can be made again from that.
mod ending {
    use super::AT;
    use std::sync::atomic::Ordering;

    #[repr(C)]
    struct Action {
        handler: extern "C" fn(i32),
        mask: [u64; 16],
        flags: i32,
        restorer: usize,
    }

    extern "C" {
        fn sigaction(signal: i32, action: *const Action, old: *mut Action) -> i32;
        fn _exit(code: i32) -> !;
    }

    extern "C" fn end(signal: i32) {
        let at: Vec<usize> = AT.iter().map(|a| a.load(Ordering::Relaxed)).collect();
        eprintln!("signal {signal}; the threads were at cases {at:?} of the family after the last row");
        unsafe { _exit(3) }
    }

    pub fn watch() {
        // SA_ONSTACK | SA_RESETHAND
        let action = Action { handler: end, mask: [0; 16], flags: 0x0800_0000u32 as i32 | 0x8000_0000u32 as i32, restorer: 0 };
        for signal in [4, 6, 7, 8, 11] {
            unsafe { sigaction(signal, &action, std::ptr::null_mut()) };
        }
    }
}

fn main() {
    let usage = || -> ! {
        eprintln!("{USAGE}");
        std::process::exit(2)
    };
    let save = "different".to_string();
    let mut options =
        Options { seed: 1, count: 1000, threads: 2, blocks: false, quiet: false, save, only_fixed: false, only_lists: false };
    let mut families: Vec<String> = Vec::new();
    let mut given: [Vec<Parts>; LAYOUTS.len()] = Default::default();
    let (mut only_wide, mut only_older) = (false, false);
    let mut big_files = false;
    let (mut files, mut only, mut in_lines) = (false, false, false);
    let (mut with, mut list) = (Setting::default(), keep::Owned::default());
    let mut args = std::env::args().skip(1);
    while let Some(arg) = args.next() {
        let mut number = || args.next().and_then(|n| n.parse().ok()).unwrap_or_else(|| usage());
        match arg.as_str() {
            "--big-endian" if files => big_files = true,
            _ if files => match fs::read(&arg).ok().and_then(|b| unbundle(&b)) {
                Some(parts) => {
                    let layout = Layout::of(order(big_files), &parts[0]);
                    given.iter_mut().zip(LAYOUTS).filter(|(_, l)| l.0 == layout).for_each(|(g, _)| g.push(parts.clone()))
                }
                None => {
                    eprintln!("{arg}: no bundle");
                    std::process::exit(1)
                }
            },
            "--lines" => in_lines = true,
            "--type-units" => with.type_units = true,
            "--big-endian" => with.big_endian = true,
            "--fixed-addresses" => (with.fixed_addresses, options.only_fixed) = (true, true),
            "--keep-lists" => options.only_lists = true,
            "--tags" => list.tags = args.next().as_deref().and_then(unhex).unwrap_or_else(|| usage()),
            "--treatments" => list.treatments = args.next().as_deref().and_then(unhex).unwrap_or_else(|| usage()),
            "--64-bit" => only_wide = true,
            "--version-4" => only_older = true,
            "--ranges-base" => with.ranges_base = number() as usize,
            "--seed" => options.seed = number(),
            "--count" => options.count = number() as usize,
            "--threads" => options.threads = (number() as usize).clamp(1, 8),
            "--blocks" => options.blocks = true,
            "--quiet" => options.quiet = true,
            "--save" => options.save = args.next().unwrap_or_else(|| usage()),
            "--only-files" => only = true,
            "--" => files = true,
            _ if arg.starts_with('-') => usage(),
            _ => families.push(arg),
        }
    }
    if in_lines {
        let child = std::thread::Builder::new().stack_size(1 << 30).spawn(move || lines(Setting { keep: list.lent(), ..with })).expect("a thread");
        std::process::exit(i32::from(!matches!(child.join(), Ok(Ok(())))))
    }
    if families.is_empty() {
        families = FAMILIES.iter().filter(|_| !only).chain(&OF_FILES).map(|f| f.to_string()).collect();
    }
    let wanted = |layout: Layout| {
        (layout.wide || !only_wide) && (layout.older || !only_older) && (layout.order == Order::Big || !with.big_endian)
    };
    let mut groups = Vec::new();
    for family in &families {
        let found = (0..LAYOUTS.len()).map(|which| Group { family, which, given: &given[which] });
        groups.extend(found.filter(|g| wanted(g.layout()) && g.cases(1).is_some()));
    }
    if families.iter().any(|f| !FAMILIES.contains(&&f[..]) && !OF_FILES.contains(&&f[..])) || groups.is_empty() {
        usage();
    }
    panic::set_hook(Box::new(|_| ()));
    ending::watch();
    std::process::exit(i32::from(!run(&groups, &options)))
}
