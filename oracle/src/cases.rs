//! Makes cases, the same for the same seed. README.md names the families. A number of a fixed width is written by the case's byte order, and an offset
//! is as wide as its format has it; of two orders the same dice make the same case.

use crate::judge::Sections;
use crate::order::{fixed, Layout};
use std::collections::BTreeSet;

/// Families that are made of nothing given, in the order of README.md.
pub const FAMILIES: [&str; 21] = [
    "small", "bytes", "valid", "lists", "expressions", "trees", "deep", "refused", "headers", "declarations", "numbers", "operations", "kinds",
    "siblings", "many", "damaged", "listed", "sums", "no-table", "failures", "addresses",
];
/// Families of given bundles.
pub const OF_FILES: [&str; 2] = ["tables", "damaged-files"];

/// The parts of a bundle, as `Sections` has them.
pub type Parts = [Vec<u8>; 6];

pub fn slices(parts: &Parts) -> Sections<'_> {
    parts.each_ref().map(|p| &p[..])
}

/// Of version 1 where .debug_ranges is empty, else of version 2, which has it.
pub fn bundle(parts: &Parts) -> Vec<u8> {
    let version = if parts[5].is_empty() { 1 } else { 2 };
    let mut out = vec![0, 0, 0, 0, version];
    for part in &parts[..4 + usize::from(version)] {
        out.extend((part.len() as u32).to_be_bytes());
        out.extend(part);
    }
    let rest = out.len() as u32 - 4;
    out[..4].copy_from_slice(&rest.to_be_bytes());
    out
}

/// The sections of a bundle whose first length has been taken off, or none for a wrong layout.
pub fn sections(rest: &[u8]) -> Option<Sections<'_>> {
    let (&version, mut rest) = rest.split_first()?;
    let count = match version {
        1 => 5,
        2 => 6,
        _ => return None,
    };
    let mut parts: Sections<'_> = [&[]; 6];
    for part in &mut parts[..count] {
        let (length, after) = rest.split_first_chunk::<4>()?;
        let length = u32::from_be_bytes(*length) as usize;
        *part = after.get(..length)?;
        rest = &after[length..];
    }
    rest.is_empty().then_some(parts)
}

/// Those of a whole bundle.
pub fn whole(bytes: &[u8]) -> Option<Sections<'_>> {
    let (length, rest) = bytes.split_first_chunk::<4>()?;
    (u32::from_be_bytes(*length) as usize == rest.len()).then(|| sections(rest))?
}

pub fn unbundle(bytes: &[u8]) -> Option<Parts> {
    whole(bytes).map(|parts| parts.map(<[u8]>::to_vec))
}

/// splitmix64.
pub struct Dice(pub u64);

impl Dice {
    pub fn next(&mut self) -> u64 {
        self.0 = self.0.wrapping_add(0x9e37_79b9_7f4a_7c15);
        let mut z = self.0;
        z = (z ^ (z >> 30)).wrapping_mul(0xbf58_476d_1ce4_e5b9);
        z = (z ^ (z >> 27)).wrapping_mul(0x94d0_49bb_1331_11eb);
        z ^ (z >> 31)
    }

    /// Below `n`, which is not 0.
    pub fn below(&mut self, n: usize) -> usize {
        (self.next() % n as u64) as usize
    }

    /// Once in `n` times.
    pub fn rare(&mut self, n: usize) -> bool {
        self.below(n) == 0
    }

    pub fn of<T: Copy>(&mut self, choices: &[T]) -> T {
        choices[self.below(choices.len())]
    }

    pub fn bytes(&mut self, n: usize) -> Vec<u8> {
        (0..n).map(|_| self.next() as u8).collect()
    }

    /// Small mostly, any number seldom.
    pub fn number(&mut self) -> u64 {
        match self.below(12) {
            0 => self.next() >> self.below(64),
            1 => self.next() & 0xffff,
            2 => self.of(&[127, 128, 255, 256, 16383, 16384, u64::MAX, 1 << 63, 0x7fff_ffff, 0xffff_ffff]),
            _ => self.below(20) as u64,
        }
    }

    /// Bytes that a number takes beyond its own: none mostly.
    pub fn padding(&mut self) -> usize {
        if self.rare(8) { 1 + self.below(3) } else { 0 }
    }
}

/// ULEB128 with `more` bytes beyond its own width, ten at most.
fn uleb(mut n: u64, more: usize) -> Vec<u8> {
    let mut out = Vec::new();
    loop {
        out.push(n as u8 & 0x7f);
        n >>= 7;
        if n == 0 {
            break;
        }
    }
    let width = (out.len() + more).min(10);
    out.resize(width, 0);
    for b in &mut out[..width - 1] {
        *b |= 0x80;
    }
    out
}

fn sleb(mut n: i64) -> Vec<u8> {
    let mut out = Vec::new();
    loop {
        let byte = n as u8 & 0x7f;
        n >>= 7;
        if n == 0 && byte & 0x40 == 0 || n == -1 && byte & 0x40 != 0 {
            out.push(byte);
            return out;
        }
        out.push(byte | 0x80);
    }
}

/// What a reference names.
#[derive(Clone, Copy)]
enum Target {
    /// The item (entry or terminator) of this index.
    Item(usize),
    /// This number.
    Number(u64),
    /// The range list, or the location list, of this index: its offset in its section.
    Ranges(usize),
    Locations(usize),
}

/// A part of a unit or a list whose bytes may depend on where items end up.
enum Piece {
    Bytes(Vec<u8>),
    Fixed(Target, usize),
    Uleb(Target, usize),
    /// Pieces after their length in ULEB128, padded; or in two bytes.
    Counted(Vec<Piece>, usize),
    Measured(Vec<Piece>),
}

/// Offsets of items and lists, as far as they are known.
#[derive(Default)]
struct Places {
    items: Vec<usize>,
    ranges: Vec<usize>,
    locations: Vec<usize>,
}

fn resolve(target: Target, places: &Places) -> u64 {
    let of = |offsets: &[usize], i: usize| offsets.get(i).copied().unwrap_or(0) as u64;
    match target {
        Target::Item(i) => of(&places.items, i),
        Target::Number(n) => n,
        Target::Ranges(i) => of(&places.ranges, i),
        Target::Locations(i) => of(&places.locations, i),
    }
}

fn render(layout: Layout, pieces: &[Piece], places: &Places, out: &mut Vec<u8>) {
    for piece in pieces {
        match piece {
            Piece::Bytes(bytes) => out.extend(bytes),
            Piece::Fixed(target, width) => out.extend(layout.bytes(resolve(*target, places), *width)),
            Piece::Uleb(target, more) => out.extend(uleb(resolve(*target, places), *more)),
            Piece::Counted(inner, _) | Piece::Measured(inner) => {
                let mut held = Vec::new();
                render(layout, inner, places, &mut held);
                let length = held.len() as u64;
                out.extend(if let Piece::Counted(_, more) = piece { uleb(length, *more) } else { layout.bytes(length, 2) });
                out.extend(held);
            }
        }
    }
}

#[derive(Clone, Copy)]
struct Spec {
    name: u16,
    form: u16,
    constant: i64,
}

#[derive(Clone)]
struct Abbreviation {
    code: u64,
    tag: u16,
    children: bool,
    specs: Vec<Spec>,
}

/// What a unit is made of, beyond the dice. All false: units on which the port and the original agree.
#[derive(Clone, Copy, Default)]
struct Style {
    /// Mostly list attributes.
    lists: bool,
    /// Mostly expressions.
    expressions: bool,
    /// Mostly nesting, siblings, terminators in odd places.
    trees: bool,
    /// What the original is known to answer otherwise.
    listed: bool,
    /// Indices of lists whose place is above 64 bits, often.
    far: bool,
    /// Mostly what asks the address table, and there is none.
    no_table: bool,
    /// The same, and the table is short, or holds bytes above 1.
    failures: bool,
    /// Mostly variables' locations with DW_OP_addr, and the same where it is not searched for.
    fixed: bool,
    /// A fault of each kind, 0 for none.
    fault: u8,
}

impl Style {
    fn asks(&self) -> bool {
        self.no_table || self.failures
    }
}

struct Maker<'a> {
    dice: &'a mut Dice,
    layout: Layout,
    style: Style,
    address_size: usize,
    /// Indices that the address table has.
    addresses: usize,
    /// Number of items, entries and terminators, and which are entries.
    entries: Vec<bool>,
    ranges: usize,
    locations: usize,
    /// Whether references may name what is no entry.
    dangling: bool,
    /// Whether siblings may name anything.
    wild: bool,
    /// Whether the fault has been put in.
    done: bool,
}

const NAMES: [u16; 12] = [0x03, 0x0b, 0x10, 0x12, 0x1c, 0x31, 0x3a, 0x40, 0x49, 0x64, 0x72, 0x2107];
const TAGS: [u16; 9] = [0x2e, 0x2e, 0x2e, 0x34, 0x34, 0x24, 0x0b, 0x13, 0x39];
const ROOTS: [u16; 8] = [0x2e, 0x2e, 0x2e, 0x34, 0x34, 0x34, 0x24, 0x0b];
const LOCATED: [u16; 8] = [0x34, 0x34, 0x34, 0x34, 0x34, 0x05, 0x2e, 0x24];
/// Tombstones of either size and what is nearly one: of four bytes the low half is written.
const FIXED: [u64; 15] = [
    0, 0, 0, u64::MAX, u64::MAX, 0xffff_ffff, 0xffff_ffff, 1, u64::MAX - 1, 0xffff_fffe, 0xffff_ffff << 32, 1 << 32, 1 << 31, 1 << 63, 0x1000,
];
const REFERENCES: [u16; 5] = [0x11, 0x12, 0x13, 0x14, 0x15];
const FORMS: [u16; 41] = [
    0x01, 0x03, 0x04, 0x05, 0x06, 0x07, 0x08, 0x09, 0x0a, 0x0b, 0x0c, 0x0d, 0x0e, 0x0f, 0x11, 0x12, 0x13, 0x14, 0x15,
    0x16, 0x17, 0x18, 0x19, 0x1a, 0x1b, 0x1c, 0x1d, 0x1e, 0x1f, 0x20, 0x21, 0x22, 0x23, 0x24, 0x25, 0x26, 0x28, 0x29,
    0x2a, 0x2b, 0x2c,
];

impl Maker<'_> {
    /// Puts the fault `n` in here, sometimes, and once.
    fn fault(&mut self, n: u8) -> bool {
        let here = self.style.fault == n && !self.done && self.dice.rare(3);
        self.done |= here;
        here
    }

    fn fixed(&self, n: u64, width: usize) -> Vec<u8> {
        self.layout.bytes(n, width)
    }

    /// An offset's number: in the 64-bit format mostly, but not always, one that four bytes hold.
    fn offset(&mut self, n: u64) -> u64 {
        if self.layout.wide && self.dice.rare(8) { n | high(self.dice) } else { n }
    }

    fn target(&mut self) -> Target {
        if self.fault(8) || self.dangling && self.dice.rare(4) {
            return match self.dice.below(3) {
                0 => Target::Number(self.dice.number()),
                1 => Target::Number((self.layout.first() + self.dice.below(64)) as u64),
                _ => Target::Item(self.dice.below(self.entries.len())),
            };
        }
        loop {
            let i = self.dice.below(self.entries.len());
            if self.entries[i] {
                return Target::Item(i);
            }
        }
    }

    /// An index into a table of lists: in it, seldom not. Four, or eight, times an index stays below 2^64, but where differences are wanted.
    fn index(&mut self, count: usize, seldom: usize) -> u64 {
        if self.style.far && self.dice.rare(4) {
            let near = u64::MAX >> if self.layout.wide { 3 } else { 2 };
            return near.wrapping_add(self.dice.below(8) as u64).wrapping_sub(self.dice.of(&[1, 3, 4, 40]));
        }
        if self.dice.rare(seldom) {
            return self.dice.number() >> if self.style.listed { 0 } else { 3 };
        }
        self.dice.below(count) as u64
    }

    fn address(&mut self) -> Vec<u8> {
        let address = match self.dice.below(4) {
            _ if self.style.fixed => self.dice.of(&FIXED),
            0 => 0,
            1 => u64::MAX,
            2 => 0xffff_ffff,
            _ => self.dice.number(),
        };
        self.fixed(address, self.address_size)
    }

    /// An index into the address table: in it, but for fault 6 and in `failures`; any number where there is none.
    fn address_index(&mut self) -> u64 {
        if self.style.failures && self.dice.rare(12) || self.style.fixed && self.dice.rare(40) {
            let past = self.dice.of(&[0, 0, 0, 0, 1, 1, 2, 100, 1 << 16, 1 << 32, 1 << 63, u64::MAX]);
            return past.saturating_add(self.addresses as u64);
        }
        if self.style.no_table && self.dice.rare(4) {
            return self.dice.of(&[u64::MAX, u64::MAX - 1, 1 << 63, 1 << 62, 1 << 32, 0xffff_ffff]);
        }
        if self.addresses == 0 || self.fault(6) {
            return self.dice.number();
        }
        self.dice.below(self.addresses) as u64
    }

    fn operation(&mut self, depth: usize, out: &mut Vec<Piece>) {
        let listed = self.style.listed;
        let code = if self.fault(5) {
            self.dice.of(&[0xff, 0x00, 0x04, 0xf0, 0xf1, 0xf8, 0xe1, 0xaa])
        } else if self.fault(7) {
            self.dice.of(&[0x9a, 0xa0, 0xf2])
        } else if self.style.asks() && self.dice.rare(2) {
            self.dice.of(&[0xa1, 0xa1, 0xa1, 0xfb, 0xfb, 0xa2, 0x03, 0xa3])
        } else if self.style.fixed && depth < 4 && !self.dice.rare(4) {
            self.dice.of(&[0x03, 0x03, 0x03, 0x03, 0x03, 0x03, 0x03, 0x03, 0x03, 0xa1, 0xa1, 0xfb, 0xa3, 0xa3, 0xf3, 0x0e, 0x22, 0xa2])
        } else {
            match self.dice.below(8) {
                0 | 1 => self.dice.of(&[0x98, 0x99, 0xa4, 0xa5, 0xa6, 0xa7, 0xa8, 0xa9, 0xf4, 0xf5, 0xf6, 0xf7, 0xf9, 0xfa]),
                2 => self.dice.of(&[0xa1, 0xa1, 0xa2, 0xfb, 0xfc]),
                3 if depth < 4 => self.dice.of(&[0xa3, 0xf3]),
                4 if listed && self.dice.rare(6) => self.dice.of(&[0xed, 0xfd]),
                5 => self.dice.of(&[0x03, 0x08, 0x09, 0x0a, 0x0b, 0x0c, 0x0d, 0x0e, 0x0f, 0x10, 0x11, 0x15, 0x23, 0x28, 0x2f]),
                6 => self.dice.of(&[0x90, 0x91, 0x92, 0x93, 0x94, 0x95, 0x9d, 0x9e]),
                _ => {
                    let low = self.dice.of(&[0x12, 0x16, 0x1b, 0x24, 0x29, 0x30, 0x50, 0x70, 0x96]);
                    low + self.dice.below(match low { 0x12 => 3, 0x16 => 5, 0x1b => 8, 0x24 => 4, 0x29 => 6, 0x96 => 2, _ => 32 }) as u8
                }
            }
        };
        out.push(Piece::Bytes(vec![code]));
        let mut bytes = |b: Vec<u8>| out.push(Piece::Bytes(b));
        let n = self.dice.number();
        let more = self.dice.padding();
        match code {
            0x03 => bytes(self.address()),
            0x08 | 0x09 | 0x15 | 0x94 | 0x95 => bytes(self.dice.bytes(1)),
            0x0a | 0x0b | 0x28 | 0x2f => bytes(self.dice.bytes(2)),
            0x0c | 0x0d => bytes(self.dice.bytes(4)),
            0x9a | 0xfd => bytes(self.dice.bytes(self.layout.word())),
            // An address of a thread's own variable is no DW_OP_addr.
            0x0e if self.style.fixed => {
                bytes(self.fixed(0x1000, 8));
                bytes(vec![self.dice.of(&[0x9b, 0xe0])]);
            }
            0x0e | 0x0f => bytes(self.dice.bytes(8)),
            0x10 | 0x23 | 0xa2 | 0xfc => bytes(uleb(n, more)),
            0x93 => bytes(uleb(if listed { n } else { n >> 3 }, more)),
            0x11 | 0x91 | 0x70..=0x8f => bytes(sleb(n as i64)),
            0x90 => bytes(uleb(n & 0xffff, more)),
            0x92 => {
                bytes(uleb(n & 0xffff, more));
                bytes(sleb(self.dice.number() as i64));
            }
            0x9d => {
                bytes(uleb(n, more));
                bytes(uleb(self.dice.number(), 0));
            }
            0x9e => {
                let held = self.dice.below(5);
                bytes(uleb(held as u64, more));
                bytes(self.dice.bytes(held));
            }
            0xa0 | 0xf2 => {
                bytes(self.dice.bytes(self.layout.word()));
                bytes(sleb(n as i64));
            }
            0xa1 | 0xfb => bytes(uleb(self.address_index(), more)),
            0xa3 | 0xf3 => {
                let inner = self.expression(depth + 1);
                out.push(Piece::Counted(inner, more));
            }
            0x98 => out.push(Piece::Fixed(self.target(), 2)),
            0x99 | 0xfa => out.push(Piece::Fixed(self.target(), 4)),
            0xa4 | 0xf4 => {
                out.push(self.type_operand(more));
                let held = self.dice.below(5);
                out.push(Piece::Bytes(vec![held as u8]));
                out.push(Piece::Bytes(self.dice.bytes(held)));
            }
            0xa5 | 0xf5 => {
                bytes(uleb(n & 0xffff, more));
                let more = self.dice.padding();
                out.push(self.type_operand(more));
            }
            0xa6 | 0xa7 | 0xf6 => {
                bytes(self.dice.bytes(1));
                out.push(self.type_operand(more));
            }
            0xa8 | 0xa9 | 0xf7 | 0xf9 => out.push(self.type_operand(more)),
            0xed => bytes(vec![self.dice.below(3) as u8, 0]),
            _ => {}
        }
    }

    fn type_operand(&mut self, more: usize) -> Piece {
        let target = if self.dice.rare(4) { Target::Number(0) } else { self.target() };
        Piece::Uleb(target, more)
    }

    fn expression(&mut self, depth: usize) -> Vec<Piece> {
        let mut out = Vec::new();
        for _ in 0..self.dice.of(&[0, 1, 1, 1, 2, 3, 6]) {
            self.operation(depth, &mut out);
        }
        out
    }

    fn abbreviation(&mut self, code: u64, tag: u16, children: bool) -> Abbreviation {
        let mut specs = Vec::new();
        let some = if self.style.lists || self.style.expressions { 3 } else { 5 };
        let least = usize::from(self.style.asks() || self.style.fixed);
        for _ in 0..least + self.dice.below(some - 2 * least) {
            let (name, form) = self.attribute(tag);
            specs.push(Spec { name, form, constant: self.dice.number() as i64 });
        }
        Abbreviation { code, tag, children, specs }
    }

    fn attribute(&mut self, tag: u16) -> (u16, u16) {
        let style = self.style;
        let listed = style.listed;
        // What the original takes for an offset, or, in the 64-bit format, perhaps what it takes for one in the other.
        let wide = self.layout.wide;
        let data = move |d: &mut Dice| if wide { d.of(&[0x06, 0x07, 0x07]) } else { 0x06 };
        // What names a list by its index, which version 4 lacks: in `listed`, seldom.
        let older = self.layout.older;
        let named = move |d: &mut Dice, index: u16| if older && !(listed && d.rare(8)) { 0x17 } else { index };
        let one_of = |d: &mut Dice, forms: &[u16]| match d.of(forms) {
            index @ (0x22 | 0x23) => named(d, index),
            form => form,
        };
        let location = |d: &mut Dice| match listed && d.rare(8) {
            true => data(d),
            false => one_of(d, &[0x18, 0x18, 0x18, 0x22, 0x22, 0x17, 0x0a, 0x16]),
        };
        let ranges = |d: &mut Dice| match listed && d.rare(8) {
            true => data(d),
            false => one_of(d, &[0x23, 0x23, 0x23, 0x17, 0x16, 0x0b]),
        };
        let d = &mut *self.dice;
        let kind = if style.asks() && !d.rare(4) {
            match tag {
                0x2e if style.failures => d.of(&[0, 2, 2]),
                0x2e => d.of(&[0, 0, 2]),
                _ => d.of(&[0, 0, 1, 4]),
            }
        } else if style.fixed && !d.rare(6) {
            d.of(if tag == 0x2e { &[1, 2, 7][..] } else { &[0, 0, 0, 0, 1, 1, 1, 7, 4] })
        } else if style.lists && !d.rare(4) {
            d.of(&[1, 2])
        } else if style.expressions && !d.rare(4) {
            d.of(&[1, 7])
        } else if style.trees {
            d.of(&[0, 3, 3, 4, 4, 5])
        } else {
            d.below(8)
        };
        match kind {
            0 if tag == 0x2e && older && d.rare(2) => (0x11, 0x1f01),
            0 if tag == 0x2e && style.asks() => {
                (0x11, d.of(&[0x1b, 0x1b, 0x29, 0x2a, 0x2b, 0x2c, 0x01, 0x01, 0x01, 0x16]))
            }
            0 if tag == 0x2e => (0x11, d.of(&[0x1b, 0x1b, 0x1b, 0x29, 0x2a, 0x2b, 0x2c, 0x01, 0x16, 0x0b])),
            0 if tag == 0x34 || style.fixed && tag != 0x2e => (0x02, 0x18),
            1 => (0x02, location(d)),
            2 => (0x55, ranges(d)),
            3 => (0x01, if d.rare(8) { 0x16 } else { d.of(&REFERENCES) }),
            4 => (d.of(&[0x49, 0x31, 0x64]), if d.rare(8) { 0x16 } else { d.of(&REFERENCES) }),
            5 => (0x03, if listed && d.rare(4) { 0x27 } else { d.of(&[0x1a, 0x25, 0x26, 0x28, 0x1f02, 0x08, 0x0e]) }),
            7 => (d.of(&[0x02, 0x40, 0x0b, 0x1c]), 0x18),
            _ if self.fault(7) => (0x49, 0x10),
            _ if listed && self.dice.rare(8) => (0x03, self.dice.of(&[0x1f01, 0x1f20, 0x1f21, 0x27])),
            _ => (self.dice.of(&NAMES), self.form()),
        }
    }

    /// Any form of the version; in version 4 0x1f01 and 0x1f02 in place of rnglistx and loclistx.
    fn form(&mut self) -> u16 {
        match self.dice.of(&FORMS) {
            0x23 if self.layout.older => 0x1f01,
            0x22 if self.layout.older => 0x1f02,
            form => form,
        }
    }

    /// The value of an attribute of the item `owner`.
    fn value(&mut self, spec: Spec, next: Target, out: &mut Vec<Piece>) {
        let form = spec.form;
        let more = self.dice.padding();
        let n = self.dice.number();
        match form {
            0x01 => out.push(Piece::Bytes(self.address())),
            // What would be an address in exprloc.
            0x0a if self.style.fixed => {
                let held = [&[0x03], &self.address()[..]].concat();
                out.push(Piece::Bytes(vec![held.len() as u8]));
                out.push(Piece::Bytes(held));
            }
            0x03 | 0x04 | 0x09 | 0x0a => {
                let held = self.dice.below(6);
                let length = match form {
                    0x03 => self.fixed(held as u64, 2),
                    0x04 => self.fixed(held as u64, 4),
                    0x0a => vec![held as u8],
                    _ => uleb(held as u64, more),
                };
                out.push(Piece::Bytes(length));
                out.push(Piece::Bytes(self.dice.bytes(held)));
            }
            0x0b | 0x0c => out.push(Piece::Bytes(vec![n as u8])),
            0x05 => out.push(Piece::Bytes(self.dice.bytes(2))),
            0x06 | 0x1c => out.push(Piece::Bytes(self.fixed(n, 4))),
            0x0e | 0x10 | 0x1d | 0x1f | 0x1f20 | 0x1f21 => out.push(Piece::Bytes(self.layout.offset(n))),
            // Where the original takes it for an offset, one that may be right.
            0x07 if self.layout.wide && matches!(spec.name, 0x02 | 0x55) => out.push(Piece::Bytes(self.fixed(n, 8))),
            0x07 | 0x20 | 0x24 => out.push(Piece::Bytes(self.dice.bytes(8))),
            0x1e => out.push(Piece::Bytes(self.dice.bytes(16))),
            0x08 => {
                let held = self.dice.below(4);
                let mut text = vec![b'a'; held];
                text.push(0);
                out.push(Piece::Bytes(text));
            }
            0x0d => out.push(Piece::Bytes(sleb(n as i64))),
            0x1f01 if self.layout.older => out.push(Piece::Bytes(uleb(self.address_index(), more))),
            0x0f | 0x1f01 => out.push(Piece::Bytes(uleb(n, more))),
            0x11..=0x15 => {
                let target = if spec.name != 0x01 {
                    self.target()
                } else if self.wild && self.dice.rare(3) {
                    match self.dice.below(3) {
                        0 => Target::Number(self.dice.below(80) as u64),
                        _ => Target::Item(self.dice.below(self.entries.len())),
                    }
                } else {
                    next
                };
                out.push(match form {
                    0x11 => Piece::Fixed(target, 1),
                    0x12 => Piece::Fixed(target, 2),
                    0x13 => Piece::Fixed(target, 4),
                    0x14 => Piece::Fixed(target, 8),
                    _ => Piece::Uleb(target, if self.style.listed { more } else { 0 }),
                });
            }
            0x16 => {
                let form = match spec.name {
                    0x01 | 0x31 | 0x49 | 0x64 => self.dice.of(&REFERENCES),
                    0x02 if self.layout.older => self.dice.of(&[0x18, 0x17, 0x17, 0x16]),
                    0x55 if self.layout.older => self.dice.of(&[0x17, 0x17, 0x16]),
                    0x11 if self.layout.older && self.dice.rare(2) => 0x1f01,
                    0x02 => self.dice.of(&[0x18, 0x22, 0x17, 0x16]),
                    0x55 => self.dice.of(&[0x23, 0x17, 0x16]),
                    0x11 => self.dice.of(&[0x1b, 0x01, 0x29]),
                    _ => loop {
                        let form = self.form();
                        if form != 0x21 && (form, spec.name) != (0x18, 0x01) {
                            break form;
                        }
                    },
                };
                let more = if self.dice.rare(6) { 1 } else { 0 };
                out.push(Piece::Bytes(uleb(form.into(), more)));
                self.value(Spec { form, ..spec }, next, out);
            }
            0x17 => {
                let target = match spec.name {
                    0x74 | 0x8c => Target::Number(self.offset(self.layout.table() as u64)),
                    // Where the sum with a ranges base is above 64 bits.
                    0x55 if self.layout.older && self.style.far && self.dice.rare(4) => {
                        Target::Number(u64::MAX - self.dice.below(40) as u64)
                    }
                    // At the section's end, or past it.
                    0x55 if self.layout.older && self.dice.rare(8) => Target::Ranges(self.ranges + self.dice.below(2)),
                    0x55 if !self.dice.rare(20) => Target::Ranges(self.dice.below(self.ranges)),
                    0x02 if !self.dice.rare(40) => Target::Locations(self.dice.below(self.locations)),
                    _ => Target::Number(self.dice.number()),
                };
                out.push(Piece::Fixed(target, self.layout.word()));
            }
            0x18 => {
                let mut inner = self.expression(0);
                if self.fault(5) {
                    inner.push(Piece::Bytes(vec![self.dice.of(&[0x03, 0x08, 0x10, 0x98, 0xa3, 0x9e])]));
                }
                out.push(Piece::Counted(inner, more));
            }
            0x19 | 0x21 => {}
            0x1a | 0x1f02 => out.push(Piece::Bytes(uleb(n, more))),
            0x1b => out.push(Piece::Bytes(uleb(self.address_index(), more))),
            0x22 => out.push(Piece::Bytes(uleb(self.index(self.locations, 50), more))),
            0x23 => out.push(Piece::Bytes(uleb(self.index(self.ranges, 12), more))),
            0x25 => out.push(Piece::Bytes(self.dice.bytes(1))),
            0x26..=0x28 => {
                let low = self.dice.below(9) as u64;
                let high = (self.dice.below(2) as u64) << if form == 0x28 { 16 } else { 8 };
                out.push(Piece::Bytes(self.fixed(high | low, usize::from(form) - 0x24)));
            }
            0x29..=0x2c => {
                let width = usize::from(form) - 0x28;
                let index = self.address_index();
                out.push(Piece::Bytes(self.fixed(index, width)));
            }
            _ => unreachable!("form {form:#x}"),
        }
    }

    /// A list of .debug_ranges: pairs and bases, dead and live, mostly with its end.
    fn range_pairs(&mut self) -> Vec<u8> {
        let mut out = Vec::new();
        let ones = u64::MAX;
        for _ in 0..self.dice.of(&[0, 1, 1, 2, 2, 3, 5]) {
            // All ones of four bytes are no base of eight; at size 4 the low four are written, so all of eight are one.
            let begin = match self.dice.below(8) {
                0 | 1 => ones,
                2..=4 => 0,
                5 => 0xffff_ffff,
                6 => self.dice.of(&[1, ones - 1, ones >> 1, 0xffff_ffff << 32, 1 << 63, 0xffff_fffe]),
                _ => self.dice.number(),
            };
            let end = match self.dice.below(6) {
                0 => 0,
                1 => ones,
                2 => 0xffff_ffff,
                3 => begin,
                _ => self.dice.number(),
            };
            out.extend(self.fixed(begin, self.address_size));
            out.extend(self.fixed(end, self.address_size));
        }
        if self.fault(5) {
            let more = 1 + self.dice.below(2 * self.address_size - 1);
            out.extend(self.dice.bytes(more));
        } else if !self.dice.rare(10) {
            out.extend(vec![0; 2 * self.address_size]);
        }
        out
    }

    fn range_list(&mut self) -> Vec<u8> {
        if self.layout.older {
            return self.range_pairs();
        }
        let mut out = Vec::new();
        for _ in 0..self.dice.of(&[0, 1, 1, 2, 2, 3, 5]) {
            let kind = if self.fault(5) {
                self.dice.of(&[8, 9, 0xff])
            } else if self.style.failures {
                self.dice.of(&[1, 2, 2, 3, 3, 4, 5, 6, 7])
            } else if self.style.no_table {
                self.dice.of(&[1, 1, 1, 2, 3, 4, 5, 5, 6, 7])
            } else {
                self.dice.of(&[1, 1, 2, 3, 4, 4, 5, 6, 7])
            };
            out.push(kind);
            let more = self.dice.padding();
            match kind {
                1..=3 => out.extend(uleb(self.address_index(), more)),
                4 => out.extend(uleb(self.dice.number(), more)),
                5..=7 => out.extend(self.address()),
                _ => {}
            }
            match kind {
                2 | 3 | 4 | 7 => out.extend(uleb(self.dice.number(), 0)),
                6 => out.extend(self.address()),
                _ => {}
            }
        }
        if !self.dice.rare(20) {
            out.push(0);
        }
        out
    }

    /// A list of version 4: kinds 1 to 3, and 4 where both read the numbers alike; in `listed` 4 to 8 of any.
    fn older_locations(&mut self) -> Vec<Piece> {
        let listed = self.style.listed;
        let mut out = Vec::new();
        for _ in 0..self.dice.of(&[0, 1, 1, 2, 3]) {
            let kind = if self.fault(5) {
                self.dice.of(&[9, 10, 0xff])
            } else if listed && self.dice.rare(6) {
                self.dice.of(&[4, 4, 4, 5, 6, 7, 8])
            } else {
                self.dice.of(&[1, 2, 3, 3, 4])
            };
            let more = self.dice.padding();
            let mut head = vec![kind];
            if let 1..=3 = kind {
                head.extend(uleb(self.dice.number(), more));
            }
            match kind {
                2 => head.extend(uleb(self.dice.number(), 0)),
                // Four bytes are a number, and a ULEB128 too.
                4 if !listed || self.dice.rare(2) => {
                    let bytes = self.dice.bytes(8);
                    head.extend(bytes.iter().enumerate().map(|(i, b)| if i % 4 == 3 { b & 0x7f } else { b | 0x80 }));
                }
                3 | 4 => {
                    for _ in 2..kind {
                        let number = self.dice.number();
                        head.extend(self.fixed(number, 4));
                    }
                }
                6..=8 => {
                    head.extend(self.address());
                    match kind {
                        7 => head.extend(self.address()),
                        8 => head.extend(uleb(self.dice.number(), more)),
                        _ => {}
                    }
                }
                _ => {}
            }
            out.push(Piece::Bytes(head));
            if matches!(kind, 2..=5 | 7 | 8) {
                let inner = self.expression(0);
                out.push(Piece::Measured(inner));
            }
        }
        if !self.dice.rare(20) {
            out.push(Piece::Bytes(vec![0]));
        }
        out
    }

    fn location_list(&mut self) -> Vec<Piece> {
        if self.layout.older {
            return self.older_locations();
        }
        let mut out = Vec::new();
        for _ in 0..self.dice.of(&[0, 1, 1, 2, 3]) {
            let kind = if self.fault(5) { self.dice.of(&[9, 10, 0xff]) } else { self.dice.of(&[1, 2, 3, 4, 4, 5, 5, 6, 7, 8]) };
            let more = self.dice.padding();
            let mut head = vec![kind];
            match kind {
                1 => head.extend(uleb(self.dice.number(), more)),
                2..=4 => {
                    head.extend(uleb(self.dice.number(), more));
                    head.extend(uleb(self.dice.number(), 0));
                }
                6..=8 => {
                    head.extend(self.address());
                    match kind {
                        7 => head.extend(self.address()),
                        8 => head.extend(uleb(self.dice.number(), more)),
                        _ => {}
                    }
                }
                _ => {}
            }
            out.push(Piece::Bytes(head));
            if matches!(kind, 2..=5 | 7 | 8) {
                let inner = self.expression(0);
                out.push(Piece::Counted(inner, more));
            }
        }
        if !self.dice.rare(20) {
            out.push(Piece::Bytes(vec![0]));
        }
        out
    }
}

/// A high word that is not 0: the sign's bit, the lowest, all of them.
fn high(dice: &mut Dice) -> u64 {
    dice.of(&[1 << 63, 1 << 32, 0xffff_ffff << 32, 1 << 40, 0x7fff_ffff << 32])
}

/// Lists one after another, as in version 4; now and then bytes between them. Behind their places come the section's
/// end and a place past it.
fn plain_section(dice: &mut Dice, lists: &[Vec<u8>], places: &mut Vec<usize>) -> Vec<u8> {
    let mut out = Vec::new();
    for list in lists {
        if dice.rare(10) {
            let more = dice.below(20);
            out.extend(dice.bytes(more));
        }
        places.push(out.len());
        out.extend(list);
    }
    if dice.rare(10) {
        let more = dice.below(4);
        out.extend(dice.bytes(more));
    }
    places.extend([out.len(), out.len() + 1 + dice.below(20)]);
    out
}

/// A list section: header, table of offsets from behind the header, lists. Where the lists are far, an offset of eight bytes may have a high
/// word, or name, by its sum with the base above 64 bits, a place in the section.
fn list_section(dice: &mut Dice, layout: Layout, address_size: usize, far: bool, lists: &[Vec<u8>], places: &mut Vec<usize>) -> Vec<u8> {
    if layout.older {
        return plain_section(dice, lists, places);
    }
    let mut body: Vec<u8> = Vec::new();
    let mut table: Vec<u8> = Vec::new();
    for list in lists {
        let past = if dice.rare(100) { dice.below(3) } else { 0 };
        let mut offset = (layout.word() * lists.len() + body.len() + past) as u64;
        if far && layout.wide && dice.rare(4) {
            offset = if dice.rare(2) { offset | high(dice) } else { (dice.below(24) as u64).wrapping_sub(layout.table() as u64) };
        }
        table.extend(layout.offset(offset));
        places.push(layout.table() + layout.word() * lists.len() + body.len());
        body.extend(list);
    }
    let mut out = vec![0; layout.version()];
    out.extend(layout.bytes(5, 2));
    out.extend([address_size as u8, 0]);
    out.extend(layout.bytes(lists.len() as u64, 4));
    out.extend(table);
    out.extend(body);
    layout.fit(&mut out);
    out
}

/// The shape of a unit: what each item is, and where its sibling would be.
struct Shape {
    /// The abbreviation of an entry, none for a terminator.
    items: Vec<Option<usize>>,
    next: Vec<usize>,
}

impl Shape {
    /// One more item; `open` has, for each list of children that is open, the entry whose sibling is still to come.
    fn put(&mut self, item: Option<usize>, open: &mut [Option<usize>]) {
        let here = self.items.len();
        if let Some(last) = open.last_mut() {
            if let Some(owner) = last.take() {
                self.next[owner] = here;
            }
            if item.is_some() {
                *last = Some(here);
            }
        }
        self.items.push(item);
        self.next.push(here);
    }
}

fn shape(dice: &mut Dice, style: Style, abbreviations: &[Abbreviation], size: usize) -> Shape {
    let mut shape = Shape { items: vec![], next: vec![] };
    let mut open: Vec<Option<usize>> = vec![None];
    let odd = if style.trees { 12 } else { 120 };
    if dice.rare(odd * 2) {
        shape.put(None, &mut open);
    }
    let mut made = 0;
    while made < size {
        let close = open.len() > 1 && dice.rare(if style.trees { 3 } else { 4 }) && (open.len() > 2 || dice.rare(odd));
        if made > 0 && close {
            shape.put(None, &mut open);
            open.pop();
        } else if made > 0 && open.len() == 1 && dice.rare(odd) {
            shape.put(None, &mut open);
        } else {
            let a = if made == 0 { 0 } else { 1 + dice.below(abbreviations.len() - 1) };
            shape.put(Some(a), &mut open);
            made += 1;
            if abbreviations[a].children {
                open.push(None);
            }
        }
    }
    if !dice.rare(odd) {
        while open.len() > 1 {
            shape.put(None, &mut open);
            open.pop();
        }
    }
    // An entry that is the last item ends where the unit ends, and there the original fails: a listed difference.
    if !style.listed && shape.items.last().is_some_and(|i| i.is_some()) {
        shape.put(None, &mut open);
    }
    shape
}

fn structured(dice: &mut Dice, layout: Layout, style: Style) -> Parts {
    let address_size = if dice.rare(if style.fixed { 2 } else { 4 }) { 4 } else { 8 };
    let addresses = if style.no_table { 0 } else { dice.of(&[1, 2, 3, 6, 140]) };
    let dangling = dice.rare(12);
    let wild = style.trees || dice.rare(6);
    let mut maker = Maker {
        dice,
        layout,
        style,
        address_size,
        addresses,
        entries: vec![true],
        ranges: 0,
        locations: 0,
        dangling,
        wild,
        done: false,
    };
    maker.ranges = 1 + maker.dice.below(4);
    maker.locations = 1 + maker.dice.below(4);

    // Abbreviations: the first is the unit's own.
    let count = 2 + maker.dice.below(8);
    let mut codes = BTreeSet::new();
    let mut abbreviations: Vec<Abbreviation> = Vec::new();
    for i in 0..count {
        let mut code = if maker.dice.rare(20) { maker.dice.next() >> maker.dice.below(64) } else { i as u64 + 1 };
        while code == 0 || !codes.insert(code) {
            code = maker.dice.next() >> 40;
        }
        let tag = if i == 0 {
            if maker.dice.rare(20) { maker.dice.of(&TAGS) } else { 0x11 }
        } else if maker.dice.rare(20) {
            maker.dice.of(&[0x11, 0x41, 0xffff, 0x05])
        } else {
            maker.dice.of(if style.fixed { &LOCATED[..] } else if style.asks() { &ROOTS[..] } else { &TAGS[..] })
        };
        let children = if i == 0 { !maker.dice.rare(20) } else { maker.dice.rare(if style.trees { 2 } else { 3 }) };
        let mut made = maker.abbreviation(code, tag, children);
        if i == 0 && maker.dice.rare(4) {
            let name = maker.dice.of(&[0x74, 0x8c]);
            let form = if maker.dice.rare(6) { 0x06 } else { 0x17 };
            made.specs.push(Spec { name, form, constant: 0 });
        }
        abbreviations.push(made);
    }

    let size = maker.dice.of(if style.fixed { &[2, 3, 4, 6, 9, 9, 14, 20] } else { &[1, 2, 3, 4, 6, 9, 14, 14, 20, 30, 60][..] });
    let shape = shape(maker.dice, style, &abbreviations, size);
    maker.entries = shape.items.iter().map(Option::is_some).collect();

    // The items' pieces, then their places, until nothing moves.
    let mut items: Vec<Vec<Piece>> = Vec::new();
    for (i, item) in shape.items.iter().enumerate() {
        let mut pieces = Vec::new();
        match item {
            None => pieces.push(Piece::Bytes(uleb(0, if style.listed && maker.dice.rare(20) { 1 } else { 0 }))),
            Some(a) => {
                let abbreviation = abbreviations[*a].clone();
                let more = if maker.dice.rare(30) { 1 } else { 0 };
                let code = if maker.fault(4) { 0x7777 } else { abbreviation.code };
                pieces.push(Piece::Bytes(uleb(code, more)));
                for spec in abbreviation.specs {
                    maker.value(spec, Target::Item(shape.next[i]), &mut pieces);
                }
            }
        }
        items.push(pieces);
    }
    let lists: Vec<Vec<u8>> = (0..maker.ranges).map(|_| maker.range_list()).collect();
    let located: Vec<Vec<Piece>> = (0..maker.locations).map(|_| maker.location_list()).collect();
    let dice = maker.dice;

    let split = dice.rare(3) && !layout.older;
    let first = layout.first() + if split { 8 } else { 0 };
    let mut places = Places { items: vec![first; items.len()], ..Places::default() };
    let mut body = Vec::new();
    for _ in 0..12 {
        body.clear();
        let mut now = Vec::new();
        for pieces in &items {
            now.push(first + body.len());
            render(layout, pieces, &places, &mut body);
        }
        if now == places.items {
            break;
        }
        places.items = now;
    }

    // Where the lists are is known once the items are in place; that moves nothing.
    let located: Vec<Vec<u8>> = located
        .iter()
        .map(|pieces| {
            let mut out = Vec::new();
            render(layout, pieces, &places, &mut out);
            out
        })
        .collect();
    let location_lists = list_section(dice, layout, address_size, style.far, &located, &mut places.locations);
    let range_lists = list_section(dice, layout, address_size, style.far, &lists, &mut places.ranges);
    body.clear();
    for pieces in &items {
        render(layout, pieces, &places, &mut body);
    }

    let before = if dice.rare(10) { dice.below(5) } else { 0 };
    let mut unit = layout.header(address_size as u8, before as u64);
    if split {
        unit[layout.version() + 2] = 5;
    }
    unit.extend(dice.bytes(first - layout.first()));
    unit.extend(body);
    layout.fit(&mut unit);
    if dice.rare(10) {
        let more = dice.below(20);
        unit.extend(dice.bytes(more));
    }

    let mut table = dice.bytes(before);
    for a in &abbreviations {
        table.extend(uleb(a.code, dice.padding()));
        table.extend(uleb(a.tag.into(), 0));
        table.push(a.children.into());
        for s in &a.specs {
            table.extend(uleb(s.name.into(), if s.name < 128 && dice.rare(30) { 1 } else { 0 }));
            table.extend(uleb(s.form.into(), 0));
            if s.form == 0x21 {
                table.extend(sleb(s.constant));
            }
        }
        table.extend([0, 0]);
    }
    table.extend(uleb(0, dice.padding()));

    let mut addresses = if style.no_table { vec![] } else { address_table(dice, addresses) };
    // Beside fixed addresses the others are mostly dead.
    if style.fixed && !dice.rare(3) {
        addresses.fill(0);
    }
    if style.failures || style.fixed && dice.rare(6) {
        for byte in &mut addresses {
            if dice.rare(5) {
                *byte = dice.of(&[2, 3, 0x7f, 0x80, 0x81, 0xff]);
            }
        }
    }
    of_parts(layout, [unit, table, location_lists, range_lists, addresses])
}

/// The parts by unit, abbreviations, location lists, range lists of the unit's version, address table; nothing in place
/// of the other version's.
fn of_parts(layout: Layout, [unit, table, locations, ranges, addresses]: [Vec<u8>; 5]) -> Parts {
    let mut parts = [unit, table, locations, vec![], addresses, vec![]];
    parts[layout.ranges()] = ranges;
    parts
}

/// A table that fails at every index (6 at the first, 17 past it), for units that have no index to ask, or are to be
/// refused at the first. An empty one would say live: only `no-table` has it, damage that leaves nothing, and given
/// units that came so.
const FAILS: [u8; 1] = [2];

/// Zeros and ones, from all dead to all live; of none a table that fails.
fn address_table(dice: &mut Dice, count: usize) -> Vec<u8> {
    let live = dice.of(&[0, 10, 25, 50, 75, 100]);
    if count == 0 {
        return FAILS.to_vec();
    }
    (0..count).map(|_| u8::from(dice.below(100) < live)).collect()
}

/// A table cut behind `keep` indices; behind none, one that fails.
fn cut(table: &mut Vec<u8>, keep: usize) {
    table.truncate(keep);
    if keep == 0 {
        table.extend(FAILS);
    }
}

/// One to three changes anywhere.
fn damage(dice: &mut Dice, layout: Layout, parts: &mut Parts) {
    for _ in 0..dice.of(&[1, 1, 1, 2, 3]) {
        let which = dice.of(&[0, 0, 0, 0, 1, 1, 2, layout.ranges(), 4]);
        let part = &mut parts[which];
        let length = part.len();
        if length == 0 {
            part.extend(dice.bytes(1));
            continue;
        }
        // Behind the header mostly: what stands there is seldom met otherwise.
        let first = layout.first();
        let place = if which == 0 && length > first && !dice.rare(6) { first + dice.below(length - first) } else { dice.below(length) };
        match dice.below(7) {
            0 | 1 => part[place] ^= 1 << dice.below(8),
            2 => part[place] = dice.next() as u8,
            3 => part[place] = dice.of(&[0, 1, 2, 0x7f, 0x80, 0xff, 0x10, 0x16, 0x98, 0xa3]),
            4 => {
                part.remove(place);
            }
            5 => {
                let byte = dice.next() as u8;
                part.insert(place, byte);
            }
            _ => part.truncate(place),
        }
    }
    // The length field fits again, mostly.
    if parts[0].len() >= layout.version() && !dice.rare(6) {
        layout.fit(&mut parts[0]);
    }
}

/// A unit with one fault of a chosen kind: 1 and 2 in the header, 3 in the abbreviations, 4 to 8 as the refusals.
fn refused(dice: &mut Dice, layout: Layout) -> Parts {
    let fault = 1 + dice.below(8) as u8;
    let style = Style { fault, lists: fault == 5 && dice.rare(2), expressions: fault >= 5 && dice.rare(2), ..Style::default() };
    let mut parts = structured(dice, layout, style);
    let (version, abbreviations) = (layout.version(), layout.abbreviations());
    match fault {
        1 => {
            let keep = dice.below(parts[0].len().min(12 + layout.first()));
            parts[0].truncate(keep);
            if keep >= version && dice.rare(2) {
                layout.fit(&mut parts[0]);
            }
        }
        2 => match dice.below(4) {
            0 => parts[0][..4].copy_from_slice(&layout.bytes(0xffff_fff0 + dice.below(16) as u64, 4)),
            1 => {
                let other = if layout.older { 5 } else { 4 };
                parts[0][version..version + 2].copy_from_slice(&layout.bytes(dice.of(&[0, 1, 2, 3, other, 6]), 2))
            }
            2 if !layout.older => parts[0][version + 2] = dice.of(&[0, 2, 3, 4, 6, 7]),
            _ => parts[0][layout.address_size()] = dice.of(&[0, 1, 2, 3, 16]),
        },
        // The right offset but for its high word.
        3 if layout.wide && dice.rare(4) => {
            let offset = fixed(layout.order, &parts[0][abbreviations.clone()]) | high(dice);
            parts[0][abbreviations].copy_from_slice(&layout.offset(offset));
        }
        3 => match dice.below(3) {
            0 => {
                let keep = dice.below(parts[1].len());
                parts[1].truncate(keep);
            }
            1 => {
                let last = parts[1].len() - 1;
                let twice = parts[1].clone();
                parts[1].truncate(last);
                parts[1].extend(twice);
            }
            _ => {
                let place = dice.below(parts[1].len());
                parts[1][place] = dice.of(&[0, 2, 0x80]);
            }
        },
        4 if dice.rare(2) => {
            let keep = layout.first() + dice.below(parts[0].len() + 1 - layout.first());
            parts[0].truncate(keep);
            layout.fit(&mut parts[0]);
        }
        6 => match dice.below(3) {
            0 => {
                let keep = dice.below(parts[4].len());
                cut(&mut parts[4], keep);
            }
            1 => {
                let place = dice.below(parts[4].len());
                parts[4][place] = 2 + dice.below(254) as u8;
            }
            _ => {}
        },
        _ => {}
    }
    parts
}

const A5: [u8; 20] = [1, 0x11, 1, 0, 0, 2, 0x2e, 0, 0x11, 0x1b, 0x49, 0x11, 0, 0, 3, 0x24, 0, 0, 0, 0];

fn of_body(layout: Layout, body: &[u8], table: &[u8]) -> Parts {
    let mut unit = layout.header(8, 0);
    unit.extend(body);
    layout.fit(&mut unit);
    of_parts(layout, [unit, A5.to_vec(), vec![], vec![], table.to_vec()])
}

/// Every body of items over the five-entry unit's abbreviations, in order of their number; subprograms with both indices and
/// with a reference to every offset from the last of the header to the unit's end; all four tables. One after another.
struct Small {
    kinds: Vec<u8>,
    references: Vec<usize>,
    table: u8,
}

impl Small {
    fn new() -> Self {
        Small { kinds: vec![], references: vec![], table: 0 }
    }

    fn length(&self) -> usize {
        self.kinds.iter().map(|&k| if k >= 3 { 3 } else { 1 }).sum()
    }

    /// The case at hand; then the next one.
    fn case(&mut self, layout: Layout) -> Parts {
        let mut body = Vec::new();
        let mut references = self.references.iter();
        for &kind in &self.kinds {
            match kind {
                0 => body.push(0),
                1 => body.push(1),
                2 => body.push(3),
                _ => body.extend([2, kind - 3, (layout.first() - 1 + *references.next().unwrap()) as u8]),
            }
        }
        let parts = of_body(layout, &body, &[self.table & 1, self.table >> 1]);
        self.step();
        parts
    }

    fn step(&mut self) {
        self.table = (self.table + 1) % 4;
        if self.table != 0 {
            return;
        }
        let most = self.length() + 1;
        for r in &mut self.references {
            if *r < most {
                *r += 1;
                return;
            }
            *r = 0;
        }
        let mut carried = true;
        for kind in &mut self.kinds {
            if *kind < 4 {
                *kind += 1;
                carried = false;
                break;
            }
            *kind = 0;
        }
        if carried {
            self.kinds.push(0);
        }
        self.references = vec![0; self.kinds.iter().filter(|k| **k >= 3).count()];
    }
}

/// Bodies of any bytes that mean something over the five-entry unit's abbreviations.
fn bytes(dice: &mut Dice, layout: Layout) -> Parts {
    let length = dice.below(14);
    let body: Vec<u8> = (0..length)
        .map(|_| match dice.below(8) {
            0 => dice.next() as u8,
            1 | 2 => (layout.first() + dice.below(16)) as u8,
            _ => dice.below(4) as u8,
        })
        .collect();
    let count = dice.below(4);
    let table = address_table(dice, count);
    of_body(layout, &body, &table)
}

/// Trees and entry values, one in the other, many levels deep.
fn deep(dice: &mut Dice, layout: Layout) -> Parts {
    let levels = dice.of(&[50, 300, 1000]);
    if dice.rare(2) {
        let mut body = vec![1; levels];
        let first = layout.first();
        body.extend([2, 0, dice.of(&[first, first + 1, first + levels]) as u8]);
        body.extend(vec![3; dice.below(3)]);
        body.extend(vec![0; levels - dice.of(&[0, 0, 1])]);
        let table = address_table(dice, 1);
        return of_body(layout, &body, &table);
    }
    let first = layout.first() as u8;
    let (two, four) = (layout.bytes(first.into(), 2), layout.bytes(u64::from(first) + 2, 4));
    let mut expression = match dice.below(6) {
        0 => [&[0x98], &two[..]].concat(),
        1 => [&[0x99], &four[..]].concat(),
        2 => vec![0xa8, first],
        3 => vec![0xff],
        4 => [&[0x9a], &layout.offset(0)[..]].concat(),
        _ => vec![],
    };
    for _ in 0..levels {
        let mut outer = vec![dice.of(&[0xa3, 0xf3])];
        outer.extend(uleb(expression.len() as u64, 0));
        outer.extend(expression);
        expression = outer;
    }
    let mut body = vec![1];
    body.extend(uleb(expression.len() as u64, 0));
    body.extend(expression);
    body.extend([2, 2, 0]);
    let mut parts = of_body(layout, &body, &[1]);
    parts[1] = vec![1, 0x11, 1, 0x40, 0x18, 0, 0, 2, 0x24, 0, 0, 0, 0];
    parts
}

/// Headers: every field right or wrong, of every version that the original knows, cut anywhere.
fn headers(dice: &mut Dice, layout: Layout) -> Parts {
    let first = layout.first() as u8;
    let mut parts =
        if dice.rare(2) { of_body(layout, &[1, 3, 2, 0, first + 1, 0], &[1]) } else { structured(dice, layout, Style::default()) };
    let version_at = layout.version();
    let size = layout.first() + if !layout.older && parts[0][version_at + 2] == 5 { 8 } else { 0 };
    let body = parts[0][size..].to_vec();
    let mut offset = fixed(layout.order, &parts[0][layout.abbreviations()]);
    // Mostly the version that the unit is made for.
    let (here, other) = if layout.older { (4, 5) } else { (5, 4) };
    let version = if dice.rare(3) { dice.of(&[0, 1, 2, 3, other, 6, 0x100 | here, 0xffff]) } else { dice.of(&[here, here, here, other]) };
    let kind = if dice.rare(2) { dice.of(&[0, 2, 3, 4, 6, 7, 0x80, 0xff]) } else { dice.of(&[1, 5]) };
    let address_size = if dice.rare(4) { dice.of(&[0, 1, 2, 3, 16, 255]) } else { parts[0][layout.address_size()] };
    // Far behind the abbreviations; in the 64-bit format by the high word alone.
    if dice.rare(8) {
        offset |= if layout.wide { high(dice) } else { 1 << 31 };
    }
    let mut fields = layout.bytes(version, 2);
    let offset = layout.offset(offset);
    if version >= 5 {
        fields.extend([kind, address_size]);
        fields.extend(offset);
        // A type's signature and its offset, or an identity.
        let more = match kind {
            2 | 6 => 8 + layout.word(),
            4 | 5 => 8,
            _ => 0,
        };
        fields.extend(dice.bytes(more));
    } else {
        fields.extend(offset);
        fields.push(address_size);
    }
    fields.extend(body);
    let mut length = fields.len() as u64;
    let mut escape = 0xffff_ffff;
    match dice.below(6) {
        0 => length = dice.below(fields.len() + 2) as u64,
        1 => length = dice.below(12 + layout.first()) as u64,
        2 if dice.rare(4) => {
            let reserved = 0xffff_fff0 + dice.below(16) as u64;
            match dice.below(if layout.wide { 4 } else { 1 }) {
                // In front, in either format.
                0 if layout.wide => escape = reserved,
                0 => length = reserved,
                // Right but for the high word; about 2^64, so that the sum with 12 is above it or not.
                1 => length |= high(dice),
                2 => length = u64::MAX - dice.below(16) as u64,
                _ => length = dice.of(&[reserved, 1 << 32, 1 << 63, u64::MAX >> 1]),
            }
        }
        _ => {}
    }
    let mut unit = if layout.wide { layout.bytes(escape, 4) } else { vec![] };
    unit.extend(layout.offset(length));
    unit.extend(fields);
    if dice.rare(5) {
        let keep = dice.below(unit.len().min(14 + layout.first()));
        unit.truncate(keep);
    }
    parts[0] = unit;
    parts
}

/// Siblings whose first target dies, so that a later place is searched for: one that fits the width, or lies just behind what fits.
fn siblings(dice: &mut Dice, layout: Layout) -> Parts {
    let form = dice.of(&[0x11, 0x11, 0x11, 0x12, 0x13, 0x14, 0x15, 0x15, 0x15, 0x18]);
    let width = match form {
        0x18 => 2,
        0x11 => 1,
        0x12 => 2,
        0x13 => 4,
        0x14 => 8,
        _ => dice.of(&[1, 1, 2]),
    };
    let most: usize = match form {
        0x11 => 255,
        0x15 if width == 1 => 127,
        0x15 => 16383,
        0x12 if dice.rare(60) => 65535,
        _ => dice.of(&[300, 700]),
    };
    // The owner; a kept parent with the dead target and a live child of `held` bytes; then what is found, no deeper than the owner.
    let early = dice.rare(5);
    let named = layout.first() as u8;
    let first = layout.first() + 1 + usize::from(early) + width;
    let dead = first + 1;
    let found = most + 1 + dice.below(5) - dice.below(6);
    let held = found.saturating_sub(first + 6);
    let target = if dice.rare(8) { dead + 1 } else { dead };
    let mut body = vec![1];
    if early {
        body.push(dice.of(&[named, 99]));
    }
    body.extend(match form {
        0x18 => vec![1, dice.of(&[0x96, 0xff])],
        0x15 => uleb(target as u64, width - 1),
        _ => layout.bytes(target as u64, width),
    });
    body.extend([3, 2, 4]);
    body.extend(layout.bytes(held as u64, 2));
    body.extend(vec![0; held + 1]);
    body.push(0);
    if dice.rare(4) {
        body.extend([5, dice.of(&[named, 99])]);
    }
    if !dice.rare(6) {
        body.extend([6, 0]);
    }
    body.push(0);
    let mut parts = of_body(layout, &body, &FAILS);
    parts[1] = vec![1, 0x24, 0];
    if early {
        parts[1].extend([0x49, 0x11]);
    }
    parts[1].extend([
        0x01, form, 0, 0, 2, 0x24, 0, 0, 0, 3, 0x24, 1, 0, 0, 4, 0x2e, 0, 0x03, 0x03, 0x11, 0x0b, 0, 0, 5, 0x2e, 0, 0x49, 0x11, 0x11, 0x19, 0, 0, 6,
        0x2e, 0, 0x11, 0x0b, 0, 0, 0,
    ]);
    parts
}

/// About as many entries as the C call's own table holds, or about as many references.
fn many(dice: &mut Dice, layout: Layout) -> Parts {
    let count = dice.of(&[2030, 2045, 2046, 2046, 2047, 2047, 2048, 2060]);
    let references = dice.of(&[0, 1, 3, 4, 4, 4, 5]);
    let live = dice.of(&[2, 40, 1000]);
    let first = layout.first() as u64;
    let named = if dice.rare(8) { first } else { first + 1 };
    let mut body = vec![1];
    for _ in 0..count {
        body.push(if dice.rare(live) { 3 } else { 2 });
        body.extend(layout.bytes(named, 2).repeat(references));
    }
    // One more entry, with the references that are missing, or one more or less.
    let missing = 8190usize.saturating_sub(count * references) + dice.below(5);
    if missing < 200 {
        let expression = [&[0x98], &layout.bytes(first + 1, 2)[..]].concat().repeat(missing);
        let place = if dice.rare(2) { 1 } else { body.len() };
        let held = [vec![4], uleb(expression.len() as u64, 0), expression].concat();
        body.splice(place..place, held);
    }
    body.push(0);
    let mut parts = of_body(layout, &body, &FAILS);
    parts[1] = vec![1, 0x11, 1, 0, 0];
    for (code, tag, more) in [(2, 0x24, &[][..]), (3, 0x2e, &[0x11, 0x19])] {
        parts[1].extend([code, tag, 0]);
        parts[1].extend([0x49, 0x12].repeat(references));
        parts[1].extend(more);
        parts[1].extend([0, 0]);
    }
    parts[1].extend([4, 0x24, 0, 0x40, 0x18, 0, 0, 0]);
    parts
}

/// A number that is short, or long in one of the ways that matter: padded, just within 64 bits, just above, unfinished or too long.
fn edge(dice: &mut Dice, layout: Layout) -> Vec<u8> {
    let first = layout.first();
    if dice.rare(3) {
        return vec![dice.below(first + 8) as u8];
    }
    let width = dice.of(&[1, 2, 2, 3, 3, 4, 5, 8, 9, 9, 10, 10, 10, 11]);
    let low = dice.of(&[0x80, 0x80, 0x80, 0xff, 0x81, 0x80 | first as u8, 0x81 | first as u8]);
    let middle = if low == 0xff { 0xff } else { 0x80 };
    let mut out = vec![middle; width];
    out[0] = low;
    out[width - 1] = dice.of(&[0, 0, 0, 1, 1, 2, 3, 4, 0x3f, 0x40, 0x7e, 0x7f]);
    out
}

/// A unit of three entries: the second's abbreviation has this tag and these attributes, and this is its value.
fn of_value(layout: Layout, tag: u8, specs: &[u8], value: &[u8]) -> Parts {
    let mut parts = of_body(layout, &[&[1, 2], value, &[3, 0]].concat(), &[1, 0]);
    parts[1] = [&[1, 0x11, 1, 0, 0, 2, tag, 0], specs, &[0, 0, 3, 0x24, 0, 0, 0, 0]].concat();
    parts
}

/// A list section with one list, behind a table of it, which in version 4 is as many bytes of no meaning.
fn one_list(layout: Layout, held: &[u8]) -> Vec<u8> {
    [&vec![0; layout.table()], &layout.offset(layout.word() as u64)[..], held].concat()
}

/// Its offset.
fn list_offset(layout: Layout) -> Vec<u8> {
    layout.offset((layout.table() + layout.word()) as u64)
}

/// The form that names it, by the index 0 in version 5, and the value.
fn by_list(layout: Layout, index: u8) -> (u8, Vec<u8>) {
    if layout.older { (0x17, list_offset(layout)) } else { (index, vec![0]) }
}

/// A location list of one entry with this expression.
fn one_location(layout: Layout, expression: &[u8]) -> Vec<u8> {
    let length = expression.len() as u64;
    match layout.older {
        true => [&[3, 0], &layout.bytes(1, 4)[..], &layout.bytes(length, 2), expression, &[0]].concat(),
        false => [&[5], &uleb(length, 0)[..], expression, &[0]].concat(),
    }
}

/// Numbers at the edges of what can be read, in every place that has one.
fn numbers(dice: &mut Dice, layout: Layout) -> Parts {
    let mut number = edge(dice, layout);
    let second = edge(dice, layout);
    let more = dice.below(4);
    let after = dice.bytes(more);
    let tag = dice.of(&[0x24, 0x2e, 0x34]);
    match dice.below(8) {
        // the code of an entry, or a terminator
        0 => {
            let mut parts = of_value(layout, tag, &[], &[]);
            parts[0].splice(layout.first() + 1..layout.first() + 2, number);
            layout.fit(&mut parts[0]);
            parts
        }
        // a value, or the length of one
        1 | 2 => {
            let [by_location, by_ranges] = if layout.older { [0x1f01, 0x1f02] } else { [0x22, 0x23] };
            let form = dice.of(&[0x09, 0x0d, 0x0f, 0x15, 0x15, 0x18, 0x1a, 0x1b, by_location, by_ranges]);
            let name = dice.of(&[0x01, 0x02, 0x03, 0x11, 0x49, 0x55]);
            if matches!(form, 0x09 | 0x18) {
                number.extend(after);
            }
            let mut parts = of_value(layout, tag, &[&[name], &uleb(form, 0)[..]].concat(), &number);
            parts[2] = one_list(layout, &[0]);
            parts[layout.ranges()] = one_list(layout, &[0]);
            parts
        }
        // the number of a form, and a value of it
        3 => {
            let form = dice.of(&[0x0b, 0x0f, 0x11, 0x15, 0x16, 0x17, 0x18, 0x1a, 0x21, 0x00, 0x02]);
            let more = dice.below(4);
            let mut value = uleb(form, more);
            if dice.rare(3) {
                value = number;
            }
            let (first, zeros) = ([layout.first() as u8], layout.offset(0));
            value.extend(dice.of(&[&first[..], &zeros, &[0x0b, 1], &[0x8b, 0, 1], &[0x8b, 0x80, 0, 1], &[0x8b, 0x80, 0x80, 0, 1]]));
            of_value(layout, tag, &[dice.of(&[0x01, 0x02, 0x49, 0x55, 0x03]), 0x16], &value)
        }
        // an operand, also in an entry value
        4 | 5 => {
            let code = dice.of(&[0x10, 0x11, 0x23, 0x70, 0x8f, 0x90, 0x91, 0x92, 0x93, 0x9d, 0x9e, 0xa0, 0xa1, 0xa2, 0xa3, 0xa4, 0xa5, 0xa6, 0xa8, 0xfb, 0xfc]);
            let fixed = match code {
                0xa0 => layout.offset(0),
                0xa6 => vec![4],
                _ => vec![],
            };
            let mut expression = [&[code], &fixed[..], &number, &second, &after].concat();
            if dice.rare(4) {
                expression = [&[0xa3], &uleb(expression.len() as u64, 0)[..], &expression].concat();
            }
            let name = dice.of(&[0x02, 0x40]);
            if dice.rare(3) {
                let (form, value) = by_list(layout, 0x22);
                let mut parts = of_value(layout, tag, &[name, form], &value);
                parts[2] = one_list(layout, &one_location(layout, &expression));
                return parts;
            }
            of_value(layout, tag, &[name, 0x18], &[&uleb(expression.len() as u64, 0)[..], &expression].concat())
        }
        // lists
        6 if !layout.older => {
            let mut parts = of_value(layout, 0x2e, &[0x55, 0x23], &[0]);
            parts[3] = one_list(layout, &[&[dice.of(&[1, 2, 3, 4])], &number[..], &second, &[0]].concat());
            parts
        }
        _ if !layout.older => {
            let mut parts = of_value(layout, tag, &[0x02, 0x22], &[0]);
            parts[2] = one_list(layout, &[&[dice.of(&[1, 2, 3, 4, 5])], &number[..], &second, &[1, 0x96, 0]].concat());
            parts
        }
        // Only the indices of a location list are such numbers.
        _ => {
            let mut parts = of_value(layout, tag, &[0x02, 0x17], &list_offset(layout));
            let kind = dice.of(&[1, 2, 2, 3, 3]);
            let rest = match kind {
                1 => vec![],
                2 => second,
                _ => dice.bytes(4),
            };
            let expression = if kind == 1 { vec![] } else { [&layout.bytes(1, 2)[..], &[0x96]].concat() };
            parts[2] = one_list(layout, &[&[kind], &number[..], &rest, &expression, &[0]].concat());
            parts
        }
    }
}

/// Tables of abbreviations, every number of them at its edges.
fn declarations(dice: &mut Dice, layout: Layout) -> Parts {
    let seldom = dice.of(&[6, 20, 60]);
    let number = |dice: &mut Dice, usual: u64| {
        if dice.rare(seldom) {
            match dice.below(3) {
                0 => edge(dice, layout),
                1 => {
                    let n = dice.of(&[0, 1, 0x7f, 0x80, 0x3fff, 0x4000, 0xffff, 0x1_0000]);
                    uleb(n, dice.below(3))
                }
                _ => uleb(usual, dice.below(4)),
            }
        } else {
            uleb(usual, 0)
        }
    };
    let mut table = Vec::new();
    let count = dice.of(&[0, 1, 1, 2, 3]);
    for code in 1..=count {
        let again = if dice.rare(seldom) { 1 } else { code };
        table.extend(number(dice, again));
        table.extend(number(dice, 0x24));
        table.push(if dice.rare(seldom) { dice.of(&[2, 0x80, 0xff, 1]) } else { 0 });
        for _ in 0..dice.below(3) {
            let form = dice.of(&[0x0b, 0x19, 0x21, 0x49]);
            table.extend(number(dice, 0x03));
            table.extend(number(dice, form));
            if form == 0x21 {
                table.extend(if dice.rare(2) { edge(dice, layout) } else { vec![dice.next() as u8 & 0x7f] });
            }
        }
        table.extend(number(dice, 0));
        table.extend(number(dice, 0));
    }
    if !dice.rare(seldom) {
        table.extend(number(dice, 0));
    }
    let body = [&[1, 0, 0][..], &[1], &[2, 0], &[], &[0]][dice.below(5)].to_vec();
    let mut parts = of_body(layout, &body, &FAILS);
    if dice.rare(8) {
        let mut offset = dice.below(table.len() + 3) as u64;
        if layout.wide && dice.rare(3) {
            offset |= high(dice);
        }
        parts[0][layout.abbreviations()].copy_from_slice(&layout.offset(offset));
    }
    parts[1] = table;
    parts
}

/// Expressions of operations of any code, with operands of any bytes: mostly 0x30 (0x3c in the 64-bit format), an operation of its own, and as an
/// offset that of the last entry.
fn operations(dice: &mut Dice, layout: Layout) -> Parts {
    let (first, last) = (layout.first() as u8, if layout.wide { 0x3c } else { 0x30 });
    let mut expression = Vec::new();
    for _ in 0..dice.of(&[1, 1, 1, 2, 3]) {
        expression.push(dice.next() as u8);
        for _ in 0..dice.below(6 + layout.word()) {
            expression.push(match dice.below(12) {
                0 => dice.next() as u8,
                1 => dice.of(&[0, 1, 2, 4, first, first + 1, 0x80 | last]),
                _ => last,
            });
        }
    }
    if dice.rare(4) {
        let code = dice.next() as u8;
        let mut operand = layout.bytes(last.into(), match code { 0x98 => 2, 0x99 | 0xfa => 4, _ => 1 });
        operand.resize(layout.word(), 0);
        expression = [&[code], &operand[..], &[last]].concat();
        let keep = 1 + dice.below(2 + layout.word());
        expression.truncate(keep);
    }
    let held = [&uleb(expression.len() as u64, 0)[..], &expression].concat();
    let tag = dice.of(&[0x34, 0x2e, 0x2e, 0x24]);
    let name = dice.of(&[0x02, 0x40]);
    let in_list = dice.rare(3);
    // The first entry, a dead one, the one that holds the expression and fills up to that place, the last.
    let (form, value) = if in_list { by_list(layout, 0x22) } else { (0x18, held) };
    let fill = usize::from(last - first - 4).saturating_sub(value.len());
    let body = [&[1, 3, 2], &value[..], &[fill as u8], &vec![0; fill], &[3, 0]].concat();
    let count = dice.below(60);
    let table = address_table(dice, count);
    let mut parts = of_body(layout, &body, &table);
    let specs: &[u8] = &[if in_list { 0x02 } else { name }, form, 0x03, 0x0a];
    let root: &[u8] = if dice.rare(4) { &[] } else { &[0x11, 0x19] };
    parts[1] = [&[1, 0x11, 1, 0, 0, 2, tag, 0], specs, root, &[0, 0, 3, 0x24, 0, 0, 0, 0]].concat();
    parts[2] = one_list(layout, &one_location(layout, &expression));
    if dice.rare(4) {
        parts[0][layout.address_size()] = 4;
    }
    parts
}

/// Addresses of either size that are dead, or all ones, or neither, and zeros of any number.
fn pairs(dice: &mut Dice, layout: Layout) -> Vec<u8> {
    let width = dice.of(&[4, 8]);
    let mut list = Vec::new();
    for _ in 0..dice.of(&[0, 1, 2, 2, 4, 4, 6, 8]) {
        let address = dice.of(&[0, 0, 0, u64::MAX, u64::MAX, 0xffff_ffff, 1, 0x1000, u64::MAX - 1, 0xffff_ffff << 32]);
        list.extend(layout.bytes(address, width));
    }
    list.extend(vec![0; dice.of(&[0, 16, 16, 8, 1])]);
    list
}

/// The entries of a location list of version 4 of any kind, mostly as long as they should be.
fn older_entries(dice: &mut Dice, layout: Layout) -> Vec<u8> {
    let mut list = Vec::new();
    for _ in 0..dice.of(&[0, 1, 1, 2, 3]) {
        let kind = if dice.rare(12) { dice.next() as u8 } else { dice.of(&[1, 1, 2, 2, 3, 3, 4, 4, 5, 6, 7, 8, 9]) };
        list.push(kind);
        let operands = match kind {
            1 => 1,
            2 => 2,
            3 => 5,
            4 => dice.of(&[8, 8, 2]),
            6 => dice.of(&[4, 8]),
            7 => dice.of(&[8, 16]),
            8 => dice.of(&[5, 9]),
            _ => 0,
        };
        for _ in 0..operands + if dice.rare(12) { 1 } else { 0 } {
            list.push(if dice.rare(4) { dice.next() as u8 } else { dice.of(&[0, 0, 0, 1, 1, 2, 3, 0x80]) });
        }
        if !matches!(kind, 1 | 6) {
            let expression = dice.of(&[&[][..], &[0x96], &[0x96, 0x96], &[0x98, 0, 0], &[0xa3, 1, 0x96], &[0xff], &[0x0c, 1]]);
            let length = if dice.rare(12) { dice.below(300) } else { expression.len() };
            list.extend(layout.bytes(length as u64, 2));
            list.extend(expression);
        }
    }
    list.extend(vec![0; dice.below(3)]);
    list
}

/// Lists of entries of any kind, with operands of any bytes.
fn kinds(dice: &mut Dice, layout: Layout) -> Parts {
    let mut list = Vec::new();
    for _ in 0..dice.of(&[0, 1, 1, 2, 3]) {
        list.push(if dice.rare(12) { dice.next() as u8 } else { dice.below(10) as u8 });
        for _ in 0..dice.of(&[0, 1, 2, 2, 3, 5, 9, 17]) {
            list.push(if dice.rare(4) { dice.next() as u8 } else { dice.of(&[0, 0, 0, 1, 1, 2, 3, 0x96]) });
        }
    }
    list.extend(vec![0; dice.below(3)]);
    let ranges = dice.rare(2);
    if layout.older && !dice.rare(4) {
        list = if ranges { pairs(dice, layout) } else { older_entries(dice, layout) };
    }
    let (name, index, tag) = if ranges { (0x55, 0x23, 0x2e) } else { (0x02, 0x22, dice.of(&[0x34, 0x2e, 0x24])) };
    let (form, value) = if dice.rare(3) { (0x17, list_offset(layout)) } else { by_list(layout, index) };
    let mut parts = of_value(layout, tag, &[name, form], &value);
    parts[if ranges { layout.ranges() } else { 2 }] = one_list(layout, &list);
    if dice.rare(4) {
        parts[0][layout.address_size()] = 4;
    }
    let count = dice.below(5);
    parts[4] = address_table(dice, count);
    parts
}

/// A given unit with another address table: as long, seldom shorter or with a wrong byte. One without a table keeps none.
fn varied(dice: &mut Dice, parts: &mut Parts) {
    let count = parts[4].len();
    let table = address_table(dice, count);
    if count == 0 {
        return;
    }
    parts[4] = table;
    if dice.rare(20) {
        let place = dice.below(count);
        if dice.rare(2) { cut(&mut parts[4], place) } else { parts[4][place] = 2 }
    }
}

/// The cases of a family, one after another.
pub struct Cases<'a> {
    family: &'a str,
    seed: u64,
    layout: Layout,
    given: &'a [Parts],
    small: Small,
}

impl<'a> Cases<'a> {
    /// None where there is no such family, or nothing given for one that needs it. What is given has this byte order and this format.
    pub fn new(family: &'a str, seed: u64, layout: Layout, given: &'a [Parts]) -> Option<Self> {
        let known = FAMILIES.contains(&family) || OF_FILES.contains(&family) && !given.is_empty();
        known.then(|| Cases { family, seed, layout, given, small: Small::new() })
    }

    /// Case `i`, the same however many are made. Of `small` they have to be taken in order, from 0 on.
    pub fn case(&mut self, i: usize) -> Parts {
        let dice = &mut Dice(self.seed.wrapping_mul(0x2545_f491_4f6c_dd1d).wrapping_add(i as u64) << 8);
        dice.next();
        let (layout, style) = (self.layout, Style::default());
        match self.family {
            "small" => self.small.case(layout),
            "bytes" => bytes(dice, layout),
            "valid" => structured(dice, layout, style),
            "lists" => structured(dice, layout, Style { lists: true, ..style }),
            "expressions" => structured(dice, layout, Style { expressions: true, ..style }),
            "trees" => structured(dice, layout, Style { trees: true, ..style }),
            "listed" => {
                let style = Style { listed: true, trees: dice.rare(3), lists: dice.rare(3), ..style };
                structured(dice, layout, style)
            }
            "deep" => deep(dice, layout),
            "refused" => refused(dice, layout),
            "sums" => structured(dice, layout, Style { lists: true, far: true, ..style }),
            "no-table" | "failures" => {
                let fault = dice.of(&[0, 0, 0, 0, 0, 0, 0, 0, 4, 5, 7, 8]);
                let no_table = self.family == "no-table";
                structured(dice, layout, Style { no_table, failures: !no_table, fault, ..style })
            }
            "addresses" => {
                let fault = dice.of(&[0, 0, 0, 0, 0, 0, 0, 0, 0, 0, 0, 0, 0, 5, 5, 7, 8]);
                structured(dice, layout, Style { fixed: true, fault, ..style })
            }
            "headers" => headers(dice, layout),
            "declarations" => declarations(dice, layout),
            "numbers" => numbers(dice, layout),
            "operations" => operations(dice, layout),
            "kinds" => kinds(dice, layout),
            "siblings" => siblings(dice, layout),
            "many" => many(dice, layout),
            "damaged" => {
                let style = Style { lists: dice.rare(4), expressions: dice.rare(4), trees: dice.rare(4), ..style };
                let mut parts = structured(dice, layout, style);
                damage(dice, layout, &mut parts);
                parts
            }
            _ => {
                let mut parts = self.given[i % self.given.len()].clone();
                varied(dice, &mut parts);
                if self.family == "damaged-files" {
                    damage(dice, layout, &mut parts);
                }
                parts
            }
        }
    }
}
