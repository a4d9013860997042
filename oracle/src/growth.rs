//! Units that grow: families of one shape each, of any size. What bench measures; README.md of bench/ names them.

use crate::cases::{Dice, Parts};
use crate::order::Layout;

/// The families, and what their size counts.
pub const FAMILIES: [(&str, &str); 32] = [
    ("wide", "entries"),
    ("wide-untouched", "entries"),
    ("deep", "entries"),
    ("chain-forward", "entries"),
    ("chain-backward", "entries"),
    ("alternating-forward", "entries"),
    ("alternating-backward", "entries"),
    ("references-random", "entries"),
    ("codes-in-order", "entries"),
    ("codes-out-of-order", "entries"),
    ("codes-above-index", "entries"),
    ("codes-beyond-index", "entries"),
    ("codes-each", "entries"),
    ("unit-tags", "entries"),
    ("strings-in-order", "entries"),
    ("strings-shuffled", "entries"),
    ("strings-descending", "entries"),
    ("strings-zigzag", "entries"),
    ("strings-sparse", "entries"),
    ("names-inline", "entries"),
    ("expression", "references in one expression"),
    ("entry-values", "levels in one expression"),
    ("entry-values-wide", "entry values beside each other"),
    ("range-list", "places of one list"),
    ("location-list", "places of one list"),
    ("lists-many", "entries"),
    ("range-list-shared", "entries, and places of one list"),
    ("location-list-shared", "entries, and places of one list"),
    ("siblings-near", "entries"),
    ("siblings-far", "entries"),
    ("attributes", "attributes of four entries"),
    ("attributes-mixed", "attributes of four entries"),
];

/// Those that are quadratic in both programs: each of n entries has its list of n places read.
pub const QUADRATIC: [&str; 2] = ["range-list-shared", "location-list-shared"];

/// Codes of `table`.
const ROOT: u8 = 1;
/// A subprogram of an address and a type.
const FUNCTION: u8 = 2;
const BASE: u8 = 3;
const TYPEDEF: u8 = 4;
/// With children.
const STRUCTURE: u8 = 5;
/// With children and a type.
const TYPED_STRUCTURE: u8 = 6;
/// A subprogram of an address.
const BARE: u8 = 7;
/// A subprogram of a sibling and an address.
const BESIDE: u8 = 8;
/// A variable of an expression.
const VARIABLE: u8 = 9;
/// A subprogram of an address and a string.
const NAMED: u8 = 10;
/// A subprogram of ranges, and one of an address and a location list; lists by index, in version 4 by offset.
const RANGED: u8 = 11;
const LOCATED: u8 = 12;
/// A subprogram of ranges and a location list.
const LISTED: u8 = 13;
/// A subprogram of an address and a string in the unit.
const INLINE: u8 = 14;
/// A compile unit of a range lists base.
const UNIT: u8 = 15;

fn uleb(out: &mut Vec<u8>, mut n: u64) {
    while n > 127 {
        out.push(n as u8 | 128);
        n >>= 7;
    }
    out.push(n as u8);
}

fn width(n: u64) -> usize {
    1 + (63 - (n | 1).leading_zeros() as usize) / 7
}

/// A value of implicit_const stands in the declaration: 5.
const IMPLICIT_CONST: u8 = 0x21;

fn declare(out: &mut Vec<u8>, code: u64, tag: u8, children: bool, attributes: &[(u8, u8)]) {
    uleb(out, code);
    out.extend([tag, children.into()]);
    for (name, form) in attributes {
        out.extend([*name, *form]);
        if *form == IMPLICIT_CONST {
            out.push(5);
        }
    }
    out.extend([0, 0]);
}

fn table(layout: Layout) -> Vec<u8> {
    let (ranges, locations) = if layout.older { (0x17, 0x17) } else { (0x23, 0x22) };
    let mut t = Vec::new();
    declare(&mut t, 1, 0x11, true, &[]);
    declare(&mut t, 2, 0x2e, false, &[(0x11, 0x29), (0x49, 0x13)]);
    declare(&mut t, 3, 0x24, false, &[(0x0b, 0x0b)]);
    declare(&mut t, 4, 0x16, false, &[(0x49, 0x13)]);
    declare(&mut t, 5, 0x13, true, &[]);
    declare(&mut t, 6, 0x13, true, &[(0x49, 0x13)]);
    declare(&mut t, 7, 0x2e, false, &[(0x11, 0x29)]);
    declare(&mut t, 8, 0x2e, false, &[(0x01, 0x13), (0x11, 0x29)]);
    declare(&mut t, 9, 0x34, false, &[(0x02, 0x18)]);
    declare(&mut t, 10, 0x2e, false, &[(0x11, 0x29), (0x03, 0x28)]);
    declare(&mut t, 11, 0x2e, false, &[(0x55, ranges)]);
    declare(&mut t, 12, 0x2e, false, &[(0x11, 0x29), (0x02, locations)]);
    declare(&mut t, 13, 0x2e, false, &[(0x55, ranges), (0x02, locations)]);
    declare(&mut t, 14, 0x2e, false, &[(0x11, 0x29), (0x03, 0x08)]);
    declare(&mut t, 15, 0x11, false, &[(0x74, 0x17)]);
    t.push(0);
    t
}

/// A unit in the making: the bytes behind the header, and its byte order and format.
struct Unit(Vec<u8>, Layout);

impl Unit {
    fn new(layout: Layout) -> Self {
        Unit(vec![ROOT], layout)
    }

    fn four(&mut self, n: usize) {
        self.0.extend(self.1.bytes(n as u64, 4));
    }

    /// Where the next item stands.
    fn place(&self) -> usize {
        self.1.first() + self.0.len()
    }

    fn reference(&mut self, code: u8, to: usize) {
        self.0.push(code);
        self.four(to);
    }

    fn function(&mut self, live: bool, to: usize) {
        self.0.extend([FUNCTION, live.into()]);
        self.four(to);
    }

    fn bare(&mut self, live: bool) {
        self.0.extend([BARE, live.into()]);
    }

    fn base(&mut self) {
        self.0.extend([BASE, 4]);
    }

    fn end(&mut self) {
        self.0.push(0);
    }

    /// The bundle's parts; the address table has a dead and a live index.
    fn parts(mut self, table: Vec<u8>, locations: Vec<u8>, ranges: Vec<u8>) -> Parts {
        self.end();
        let mut section = self.1.header(8, 0);
        section.extend(self.0);
        self.1.fit(&mut section);
        let mut parts = [section, table, locations, vec![], vec![0, 1], vec![]];
        parts[self.1.ranges()] = ranges;
        parts
    }

    fn plain(self) -> Parts {
        self.listed(Lists::default(), Lists::default())
    }

    fn listed(self, locations: Lists, ranges: Lists) -> Parts {
        let layout = self.1;
        self.parts(table(layout), locations.section(layout), ranges.section(layout))
    }

    /// The last list of these: its index, in version 4 its offset.
    fn last(&mut self, lists: &Lists) {
        match self.1.older {
            true => self.0.extend(self.1.offset(lists.starts[lists.starts.len() - 1] as u64)),
            false => uleb(&mut self.0, lists.starts.len() as u64 - 1),
        }
    }
}

/// A list section in the making: where its lists start, and their bytes.
#[derive(Default)]
struct Lists {
    starts: Vec<usize>,
    bytes: Vec<u8>,
}

impl Lists {
    /// A list of ranges, each live or dead.
    fn ranges(&mut self, layout: Layout, live: impl Iterator<Item = bool>) {
        self.starts.push(self.bytes.len());
        for live in live {
            match layout.older {
                true => [0, 16].iter().for_each(|n| self.bytes.extend(layout.bytes(n + if live { 4096 } else { 0 }, 8))),
                false => self.bytes.extend([3, live.into(), 16]),
            }
        }
        self.bytes.extend(if layout.older { &[0; 16][..] } else { &[0] });
    }

    /// A list of places, an expression of two bytes each.
    fn locations(&mut self, layout: Layout, expressions: impl Iterator<Item = [u8; 2]>) {
        self.starts.push(self.bytes.len());
        for expression in expressions {
            self.bytes.extend([3, 0]);
            match layout.older {
                true => [(16, 4), (2, 2)].iter().for_each(|(n, width)| self.bytes.extend(layout.bytes(*n, *width))),
                false => self.bytes.extend([16, 2]),
            }
            self.bytes.extend(expression);
        }
        self.bytes.push(0);
    }

    /// Behind a header and a table of offsets, which version 4 has not.
    fn section(self, layout: Layout) -> Vec<u8> {
        let mut out = vec![0; if self.starts.is_empty() { 0 } else { layout.table() }];
        for start in self.starts.iter().filter(|_| !layout.older) {
            out.extend(layout.offset((start + layout.word() * self.starts.len()) as u64));
        }
        out.extend(self.bytes);
        out
    }
}

/// Four entries a step: a type, a name for it, a function of that type, a type that nobody names. Every second function is live.
fn wide(layout: Layout, n: usize, dead: bool) -> Parts {
    let mut u = Unit::new(layout);
    for i in 0..n / 4 {
        let base = u.place();
        u.base();
        let name = u.place();
        u.reference(TYPEDEF, base);
        u.function(!dead || i % 2 == 0, name);
        match dead {
            true => u.base(),
            false => u.bare(true),
        }
    }
    u.plain()
}

/// Each level holds a dead entry and the next level; the innermost a live function.
fn deep(layout: Layout, n: usize) -> Parts {
    let mut u = Unit::new(layout);
    for _ in 0..n / 2 {
        u.0.push(STRUCTURE);
        u.base();
    }
    u.bare(true);
    for _ in 0..n / 2 {
        u.end();
    }
    u.plain()
}

/// Names of names, a dead entry behind each; the live function names the chain's start.
fn chain(layout: Layout, n: usize, forward: bool) -> Parts {
    let mut u = Unit::new(layout);
    if forward {
        u.function(true, u.place() + 6);
    }
    let mut before = u.place();
    u.base();
    if forward {
        u.0.truncate(u.0.len() - 2);
    }
    for _ in 0..n / 2 {
        let here = u.place();
        u.reference(TYPEDEF, if forward { here + 7 } else { before });
        u.base();
        before = here;
    }
    match forward {
        true => u.base(),
        false => u.function(true, before),
    }
    u.plain()
}

/// Structures of two entries each, one of them dead. A structure is kept for its kept entry, and names the kept entry of the next one.
fn alternating(layout: Layout, n: usize, forward: bool) -> Parts {
    let steps = n / 3;
    let mut u = Unit::new(layout);
    for i in 0..steps {
        let here = u.place();
        let first = if forward { i == 0 } else { i == steps - 1 };
        let last = if forward { i == steps - 1 } else { i == 0 };
        // Behind the code, the type and the step's ten bytes.
        let next = if forward { here + 5 + 10 } else { here + 5 - 10 };
        u.reference(TYPED_STRUCTURE, if last { here + 5 } else { next });
        match first {
            true => u.bare(true),
            false => u.base(),
        }
        u.base();
        u.end();
    }
    u.plain()
}

/// Each entry names any other; one in sixteen is a live function, one in sixteen a dead one.
fn random(layout: Layout, n: usize) -> Parts {
    let mut u = Unit::new(layout);
    let first = u.place();
    let place = |i: usize| first + i / 16 * 82 + if i % 16 == 0 { 0 } else if i % 16 < 9 { 6 + (i % 16 - 1) * 5 } else { 12 + (i % 16 - 2) * 5 };
    let mut dice = Dice(1);
    let n = n / 16 * 16;
    for i in 0..n {
        debug_assert_eq!(u.place(), place(i));
        let to = place(dice.below(n));
        match i % 16 {
            0 => u.function(true, to),
            8 => u.function(false, to),
            _ => u.reference(TYPEDEF, to),
        }
    }
    u.plain()
}

/// Half as many declarations as entries, or as many; each entry has any of them.
fn codes(layout: Layout, n: usize, kind: &str) -> Parts {
    let number = |i: usize| match kind {
        "codes-above-index" => (1 << 40) + i as u64,
        _ => 2 + i as u64,
    };
    let count = if kind == "codes-each" { n } else { n / 2 };
    let mut t = Vec::new();
    declare(&mut t, 1, 0x11, true, &[]);
    for i in 0..count {
        let i = if kind == "codes-out-of-order" { count - 1 - i } else { i };
        declare(&mut t, number(i), 0x2e, false, &[(0x11, 0x29)]);
    }
    t.push(0);
    let mut u = Unit::new(layout);
    let mut dice = Dice(1);
    for i in 0..n {
        uleb(&mut u.0, number(dice.below(count)));
        u.0.push((i % 2) as u8);
    }
    u.parts(t, vec![], vec![])
}

/// How many numbers of an index are lent for a family's unit, where they are fewer than its declarations: half of them.
pub fn index(family: &str, size: usize) -> Option<usize> {
    (family == "codes-beyond-index").then_some(size / 4)
}

/// In twos: a compile unit of a base of its own, and a function; every second function live.
fn unit_tags(layout: Layout, n: usize) -> Parts {
    let mut u = Unit::new(layout);
    for i in 0..n / 2 {
        u.0.push(UNIT);
        u.0.extend(layout.offset(layout.table() as u64));
        u.bare(i % 2 == 0);
    }
    u.plain()
}

/// The numbers of so many strings, in the order that they come.
fn numbers(n: usize, kind: &str) -> Vec<usize> {
    match kind {
        "strings-descending" => (0..n).rev().collect(),
        "strings-zigzag" => (0..n).map(|i| if i % 2 == 0 { i / 2 } else { n - 1 - i / 2 }).collect(),
        // All are different, for the factor is odd.
        "strings-sparse" => (0..n).map(|i| i * 0x9e37_79b1 % (1 << 32)).collect(),
        "strings-shuffled" => {
            let mut numbers: Vec<usize> = (0..n).collect();
            let mut dice = Dice(1);
            for i in (1..n).rev() {
                numbers.swap(i, dice.below(i + 1));
            }
            numbers
        }
        _ => (0..n).collect(),
    }
}

/// Functions of a string each, two live, two dead.
fn strings(layout: Layout, n: usize, kind: &str) -> Parts {
    let mut u = Unit::new(layout);
    for (i, number) in numbers(n, kind).iter().enumerate() {
        u.0.extend([NAMED, u8::from(i % 4 < 2)]);
        u.four(*number);
    }
    u.plain()
}

/// Functions with a name of one to thirty-two bytes in the unit each, every second one live.
fn names_inline(layout: Layout, n: usize) -> Parts {
    let mut u = Unit::new(layout);
    for i in 0..n {
        u.0.extend([INLINE, (i % 2) as u8]);
        u.0.extend(vec![b'a'; 1 + i * 7 % 32]);
        u.end();
    }
    u.plain()
}

fn variable(u: &mut Unit, expression: &[u8]) {
    u.0.push(VARIABLE);
    uleb(&mut u.0, expression.len() as u64);
    u.0.extend(expression);
}

/// A live variable's expression that names so many types, among fifty, each in an entry of its own; and fifty dead ones.
fn expression(layout: Layout, n: usize) -> Parts {
    let mut u = Unit::new(layout);
    let first = u.place();
    for _ in 0..100 {
        u.base();
    }
    let mut e = vec![0xa1, 1];
    for i in 0..n {
        e.push(0xa8);
        uleb(&mut e, (first + 4 * (i % 50)) as u64);
    }
    variable(&mut u, &e);
    u.plain()
}

/// A live variable's expression with entry values one in the other; the innermost names a type.
fn nested(layout: Layout, n: usize) -> Parts {
    let mut u = Unit::new(layout);
    let named = u.place();
    u.base();
    u.base();
    let mut inner = vec![0xa8];
    uleb(&mut inner, named as u64);
    let mut lengths = vec![inner.len()];
    for _ in 1..n {
        let l = lengths[lengths.len() - 1];
        lengths.push(1 + width(l as u64) + l);
    }
    let mut e = vec![0xa1, 1];
    for l in lengths.iter().rev() {
        e.push(0xa3);
        uleb(&mut e, *l as u64);
    }
    e.extend(inner);
    variable(&mut u, &e);
    u.plain()
}

/// The same number of entry values, one level deep.
fn beside(layout: Layout, n: usize) -> Parts {
    let mut u = Unit::new(layout);
    let named = u.place();
    u.base();
    u.base();
    let mut e = vec![0xa1, 1];
    for _ in 0..n {
        e.extend([0xa3, 2, 0xa8, named as u8]);
    }
    variable(&mut u, &e);
    u.plain()
}

/// All dead but the last.
fn dead_but_last(n: usize) -> impl Iterator<Item = bool> {
    (0..n).map(move |i| i == n - 1)
}

/// So many functions that name one list of so many ranges, all dead but the last.
fn range_list(layout: Layout, functions: usize, n: usize) -> Parts {
    let mut u = Unit::new(layout);
    let mut ranges = Lists::default();
    ranges.ranges(layout, dead_but_last(n));
    u.base();
    for _ in 0..functions {
        u.0.push(RANGED);
        u.last(&ranges);
    }
    u.listed(Lists::default(), ranges)
}

/// A live function with one location list whose every place names a type.
fn location_list(layout: Layout, n: usize) -> Parts {
    let mut u = Unit::new(layout);
    let named = u.place() as u8;
    let mut locations = Lists::default();
    locations.locations(layout, (0..n).map(|_| [0xa8, named]));
    u.base();
    u.base();
    u.0.extend([LOCATED, 1]);
    u.last(&locations);
    u.listed(locations, Lists::default())
}

/// Live functions that name one location list of as many places, which name nothing.
fn shared_locations(layout: Layout, n: usize) -> Parts {
    let mut u = Unit::new(layout);
    let mut locations = Lists::default();
    locations.locations(layout, (0..n).map(|_| [0x91, 8]));
    u.base();
    for _ in 0..n {
        u.0.extend([LOCATED, 1]);
        u.last(&locations);
    }
    u.listed(locations, Lists::default())
}

/// Functions, each with a range list and a location list of its own of three places; every second one live.
fn many_lists(layout: Layout, n: usize) -> Parts {
    let mut u = Unit::new(layout);
    let named = u.place() as u8;
    let (mut locations, mut ranges) = (Lists::default(), Lists::default());
    u.base();
    for i in 0..n {
        ranges.ranges(layout, [false, false, i % 2 == 1].into_iter());
        locations.locations(layout, [[0xa8, named], [0x91, 8], [0x91, 16]].into_iter());
        u.0.push(LISTED);
        u.last(&ranges);
        u.last(&locations);
    }
    u.listed(locations, ranges)
}

/// Functions with a sibling each, the entry behind; every second one live, so half of the kept siblings name a dead one.
fn siblings_near(layout: Layout, n: usize) -> Parts {
    let mut u = Unit::new(layout);
    for i in 0..n {
        u.reference(BESIDE, u.place() + 6);
        u.0.push(u8::from(i % 4 < 2));
    }
    u.plain()
}

/// Live functions whose sibling is one dead entry; behind it as many live ones, one level deeper.
fn siblings_far(layout: Layout, n: usize) -> Parts {
    let mut u = Unit::new(layout);
    let dead = u.place() + 6 * (n / 2) + 1;
    for _ in 0..n / 2 {
        u.reference(BESIDE, dead);
        u.0.push(1);
    }
    u.0.push(STRUCTURE);
    u.base();
    for _ in 0..n / 2 {
        u.bare(true);
    }
    u.end();
    u.plain()
}

/// Constants of four widths.
const PLAIN_FORMS: &[u8] = &[0x0b, 0x05, 0x0f, 0x0d];
/// Constants, flags, strings, blocks, references and offsets: data1, data2, data4, data8, data16, udata, sdata,
/// implicit_const, flag, flag_present, string, strp, line_strp, strx1, strx, block1, block, exprloc, sec_offset, ref1, ref4
/// and ref_udata.
const MIXED_FORMS: &[u8] = &[
    0x0b, 0x08, 0x05, 0x0e, 0x06, IMPLICIT_CONST, 0x07, 0x25, 0x1e, 0x0f, 0x11, 0x0d, 0x0a, 0x0c, 0x09, 0x19, 0x18, 0x1f, 0x17, 0x1a, 0x13, 0x15,
];

/// A value of a form; a reference names the entry behind the root.
fn value(u: &mut Unit, form: u8) {
    let named = u.1.first() + 1;
    match form {
        0x19 | IMPLICIT_CONST => (),
        0x05 => u.0.extend([1, 2]),
        0x06 => u.four(7),
        0x07 => u.0.extend([7; 8]),
        0x1e => u.0.extend([7; 16]),
        0x08 => u.0.extend(b"name\0"),
        0x09 | 0x0a | 0x18 => u.0.extend([2, 0x91, 8]),
        0x0e | 0x17 | 0x1f => u.0.extend(u.1.offset(9)),
        0x11 | 0x15 => u.0.push(named as u8),
        0x13 => u.four(named),
        _ => u.0.push(5),
    }
}

/// A type, and four entries of so many attributes together, names that nobody asks for; two dead, two in a live function.
fn attributes(layout: Layout, n: usize, forms: &[u8]) -> Parts {
    let mut t = Vec::new();
    declare(&mut t, 1, 0x11, true, &[]);
    let all: Vec<(u8, u8)> = (0..n / 4).map(|i| (0x0b, forms[i % forms.len()])).collect();
    declare(&mut t, 2, 0x24, false, &all);
    declare(&mut t, 3, 0x2e, true, &[(0x11, 0x29)]);
    declare(&mut t, 4, 0x24, false, &[]);
    t.push(0);
    let mut u = Unit::new(layout);
    u.0.push(4);
    let entry = |u: &mut Unit| {
        u.0.push(2);
        all.iter().for_each(|(_, form)| value(u, *form));
    };
    entry(&mut u);
    u.0.extend([3, 1]);
    entry(&mut u);
    entry(&mut u);
    u.end();
    entry(&mut u);
    u.parts(t, vec![], vec![])
}

/// The unit of this family and size; none where there is no such family.
pub fn unit(family: &str, size: usize, layout: Layout) -> Option<Parts> {
    Some(match family {
        "wide" => wide(layout, size, true),
        "wide-untouched" => wide(layout, size, false),
        "deep" => deep(layout, size),
        "chain-forward" => chain(layout, size, true),
        "chain-backward" => chain(layout, size, false),
        "alternating-forward" => alternating(layout, size, true),
        "alternating-backward" => alternating(layout, size, false),
        "references-random" => random(layout, size),
        "unit-tags" => unit_tags(layout, size),
        "names-inline" => names_inline(layout, size),
        "expression" => expression(layout, size),
        "entry-values" => nested(layout, size),
        "entry-values-wide" => beside(layout, size),
        "range-list" => range_list(layout, 1, size),
        "location-list" => location_list(layout, size),
        "lists-many" => many_lists(layout, size),
        "range-list-shared" => range_list(layout, size, size),
        "location-list-shared" => shared_locations(layout, size),
        "siblings-near" => siblings_near(layout, size),
        "siblings-far" => siblings_far(layout, size),
        "attributes" => attributes(layout, size, PLAIN_FORMS),
        "attributes-mixed" => attributes(layout, size, MIXED_FORMS),
        _ if family.starts_with("codes-") => codes(layout, size, family),
        _ if family.starts_with("strings-") => strings(layout, size, family),
        _ => return None,
    })
}

/// Sizes of a family, two a decade, and one that the C call's own tables just hold.
pub fn sizes(most: usize) -> Vec<usize> {
    [1_000, 2_000, 3_162, 10_000, 31_623, 100_000, 316_228, 1_000_000].into_iter().filter(|s| *s <= most).collect()
}

/// A compiler's unit with about half of its addresses dead.
pub fn half_live(mut parts: Parts) -> Parts {
    let mut dice = Dice(1);
    for byte in &mut parts[4] {
        *byte = (dice.next() & 1) as u8;
    }
    parts
}

/// A bundle's name: its folder's and its file's, without the ending.
pub fn name(path: &str) -> String {
    let start = path.rmatch_indices('/').nth(1).map_or(0, |(at, _)| at + 1);
    path[start..].strip_suffix(".bundle").unwrap_or(&path[start..]).to_string()
}
