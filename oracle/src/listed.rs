//! Which of the listed differences a case can show, told from the input and the marks, never from the answer; and how the input is to be
//! changed so that the original reads what the port reads.

use crate::judge::{self, Sections, Setting};
use crate::order::{self, Layout};
use crate::unit::{self, uleb, Slice, Unit};
use gimli::{EndianSlice, LocationLists, LocationListsOffset, Operation, Reader};
use std::collections::{BTreeMap, BTreeSet, HashMap};
use std::ops::Range;

pub struct Case<'a> {
    pub parts: Sections<'a>,
    pub setting: Setting<'a>,
    /// How many entries were met.
    pub met: usize,
    /// Final marks, empty where something was refused before.
    pub marks: &'a [(usize, char)],
}

/// What makes the original read as the port does, a byte of a part: part, place, byte; at its end, a byte more. No
/// width changes.
pub(crate) struct Change(pub(crate) usize, pub(crate) usize, pub(crate) u8);

/// Bytes from a place of a part on.
fn changes(part: usize, place: usize, bytes: Vec<u8>) -> Vec<Change> {
    bytes.into_iter().enumerate().map(|(i, byte)| Change(part, place + i, byte)).collect()
}

/// Whether the original's sums wrap for an index into the table of a list section: the index times the width of an offset, or the offset that
/// stands there with the base.
fn wraps(section: &[u8], layout: Layout, base: u64, index: u64) -> bool {
    let word = layout.word();
    // The base is stepped over by itself, so nothing is read where it is behind the end.
    let Some(table) = usize::try_from(base).ok().and_then(|base| section.get(base..)) else { return false };
    let Some(place) = index.checked_mul(word as u64) else { return true };
    let Some(offset) = usize::try_from(place).ok().and_then(|place| table.get(place..)?.get(..word)) else { return false };
    order::fixed(layout.order, offset).checked_add(base).is_none()
}

fn natural(mut n: u64) -> usize {
    let mut width = 1;
    while n > 127 {
        n >>= 7;
        width += 1;
    }
    width
}

/// The first operation that one side knows and the other does not, 0xed and 0xfd: its place, and an operation of the same operands that both
/// take as the port takes this one.
fn odd_operation(expression: Slice<'_>, encoding: gimli::Encoding) -> Option<(usize, u8)> {
    let mut rest = expression;
    while !rest.is_empty() {
        let place = expression.len() - rest.len();
        match Operation::parse(&mut rest, encoding) {
            Ok(Operation::WasmLocal { .. } | Operation::WasmGlobal { .. } | Operation::WasmStack { .. }) => return Some((place, 0xff)),
            Ok(Operation::EntryValue { expression: inner }) => {
                let start = expression.len() - rest.len() - inner.len();
                if let Some((within, code)) = odd_operation(inner, encoding) {
                    return Some((start + within, code));
                }
            }
            Ok(_) => {}
            Err(gimli::Error::InvalidExpression(code)) if code.0 == 0xfd => return Some((place, 0x9a)),
            Err(_) => return None,
        }
    }
    None
}

/// The location lists of a case, and what they are read by.
struct Locations<'a> {
    section: Slice<'a>,
    lists: LocationLists<Slice<'a>>,
    encoding: gimli::Encoding,
}

/// A location list of version 4, as the port reads it.
#[derive(Default)]
struct Older {
    expressions: Vec<Range<usize>>,
    /// The rule of the first entry that the original reads otherwise.
    rule: Option<&'static str>,
    /// The same list in bytes that the original reads so.
    written: Vec<u8>,
}

impl Locations<'_> {
    /// Where the expression of an entry that the original has read stands; nowhere for a base.
    fn place(&self, entry: &gimli::RawLocListEntry<Slice<'_>>) -> Range<usize> {
        use gimli::RawLocListEntry::*;
        match entry {
            StartxEndx { data, .. } | StartxLength { data, .. } | OffsetPair { data, .. } | DefaultLocation { data } | StartEnd { data, .. }
            | StartLength { data, .. } | AddressOrOffsetPair { data, .. } => {
                let start = data.0.offset_from(self.section);
                start..start + data.0.len()
            }
            BaseAddressx { .. } | BaseAddress { .. } => 0..0,
        }
    }

    /// The expressions of a list of version 5.
    fn expressions(&self, from: usize) -> Vec<Range<usize>> {
        let mut found = Vec::new();
        if let Ok(mut entries) = self.lists.raw_locations_dwo(LocationListsOffset(from), self.encoding) {
            while let Ok(Some(entry)) = entries.next() {
                found.push(self.place(&entry));
            }
        }
        found
    }

    /// The expression of the entry of version 4 at a place, as the port reads it; that of a base is empty, behind its
    /// index.
    fn older_entry(&self, at: usize) -> gimli::Result<Range<usize>> {
        let mut rest = self.section.range_from(at..);
        let kind = rest.read_u8()?;
        match kind {
            1..=3 => rest.read_uleb128().map(|_| ())?,
            4 => rest.read_u32().map(|_| ())?,
            _ => return Err(gimli::Error::InvalidAddressRange),
        }
        match kind {
            2 => rest.read_uleb128().map(|_| ())?,
            3 | 4 => rest.read_u32().map(|_| ())?,
            _ => {}
        }
        let length = if kind == 1 { 0 } else { rest.read_u16()?.into() };
        rest.skip(length)?;
        let end = self.section.len() - rest.len();
        Ok(end - length..end)
    }

    /// A list of version 4 up to what neither reads, or the section's end.
    fn older(&self, from: usize) -> Older {
        let bytes = self.section.slice();
        let mut found = Older::default();
        let mut at = from;
        loop {
            let kind = bytes.get(at).copied().unwrap_or(0);
            if kind == 0 {
                found.written.push(0);
                return found;
            }
            let mut entries = self.lists.raw_locations_dwo(LocationListsOffset(at), self.encoding).expect("a place in the section");
            let original = entries.next().ok().flatten().map(|e| self.place(&e));
            let port = self.older_entry(at).ok();
            let same = if kind == 1 { port.is_some() == original.is_some() } else { port == original };
            if !same {
                assert!((4..=8).contains(&kind), "gimli keeps to the proposal in kinds 1 to 3 and knows none above 8");
                found.rule = found.rule.or(Some(if kind == 4 { "offset-pair" } else { "location-kind" }));
            }
            let Some(expression) = port else {
                found.written.push(0xff);
                return found;
            };
            match same {
                true => found.written.extend(&bytes[at..expression.end]),
                // Two numbers of four bytes are two ULEB128 of four.
                false => {
                    found.written.extend([4, 0x80, 0x80, 0x80, 0, 0x80, 0x80, 0x80, 0]);
                    found.written.extend(&bytes[at + 9..expression.end]);
                }
            }
            at = expression.end;
            let readable = judge::references(&bytes[expression.clone()], self.encoding, self.section.endian()).is_ok();
            found.expressions.push(expression);
            if !readable {
                found.written.push(0xff);
                return found;
            }
        }
    }

    /// The lists under DW_AT_location of all entries that can be read, of version 4, written behind the section, each
    /// by itself, and their offsets: so that what is changed of one list is not read in another.
    fn anew(&self, case: &Case<'_>, layout: Layout) -> Vec<Change> {
        let mut made = Vec::new();
        let mut end = self.section.len();
        let Ok(Some(unit)) = unit::read(case.parts, layout.order, usize::MAX) else { return made };
        let entries = unit.items.iter().filter_map(|i| i.entry.as_ref());
        for a in entries.flat_map(|e| &e.attributes).filter(|a| (a.form, a.name) == (0x17, 0x02)) {
            let from = order::fixed(layout.order, &case.parts[0][a.at..a.end]);
            if from > self.section.len() as u64 {
                made.extend(changes(0, a.at, layout.offset(u64::MAX)));
                continue;
            }
            let written = self.older(from as usize).written;
            made.extend(changes(0, a.at, layout.offset(end as u64)));
            end += written.len();
            made.extend(changes(2, end - written.len(), written));
        }
        made
    }
}

/// What of the listed is read, entry by entry, with the changes for each.
pub(crate) fn reading(case: &Case<'_>, unit: &Unit) -> Vec<(&'static str, Vec<Change>)> {
    let bytes = case.parts[0];
    let encoding = unit.encoding;
    let layout = unit.layout;
    let reader = |part| EndianSlice::new(part, layout.order);
    let fixed = |bytes: &[u8]| order::fixed(layout.order, bytes);
    let section = reader(case.parts[2]);
    let locations = Locations { section, lists: judge::location_lists(section, layout.older), encoding };
    let mut anew = None;
    let mut found = Vec::new();
    // The form that the original takes for an offset, data as wide as one.
    let (data, rule) = if layout.wide { (0x07, "data8") } else { (0x06, "data4") };
    let (mut range_base, mut location_base) = (layout.table() as u64, layout.table() as u64);
    for item in &unit.items {
        let Some(entry) = &item.entry else { continue };
        for a in entry.attributes.iter().filter(|a| entry.tag == 0x11 && a.form == 0x17) {
            match a.name {
                0x74 => range_base = fixed(&bytes[a.at..a.end]),
                0x8c => location_base = fixed(&bytes[a.at..a.end]),
                _ => {}
            }
        }
        for (i, a) in entry.attributes.iter().enumerate() {
            let value = &bytes[a.at..a.end];
            // The low seven bits of the form's number become others.
            let form = |low: u8| {
                let (part, place) = match a.number {
                    Some(place) => (0, place),
                    None => {
                        let from = fixed(&bytes[layout.abbreviations()]) as usize;
                        (1, unit::form_places(case.parts[1], from, entry.code).map_or(0, |p| p[i]))
                    }
                };
                vec![Change(part, place, case.parts[part][place] & 0x80 | low)]
            };
            let index = uleb(value).map_or(0, |v| v.0);
            // An index of the same width that is behind the table's section, without a sum above 64 bits; where there is none, an offset in the table.
            let out = |part: usize, base: u64| {
                let far = if value.len() < 9 { (1 << (7 * value.len())) - 1 } else { 1 << 59 };
                match base + far * layout.word() as u64 >= case.parts[part].len() as u64 {
                    true => changes(0, a.at, padded(far, value.len())),
                    false => changes(part, (base + index * layout.word() as u64) as usize, layout.offset(u64::MAX >> 1)),
                }
            };
            let mut list = None;
            match (a.form, a.name) {
                (0x1f20 | 0x1f21, _) => found.push(("form", form(0x7f))),
                (0x1f01, _) if !layout.older => found.push(("form", form(0x7f))),
                (0x22 | 0x23, _) if layout.older => found.push(("list-index", form(0x7f))),
                (0x18, 0x01) => found.push(("sibling-exprloc", form(0x02))),
                (f, 0x02) if f == data => found.push((rule, form(0x0e))),
                (f, 0x55) if f == data && entry.tag == 0x2e => found.push((rule, form(0x0e))),
                (0x23, 0x55) if entry.tag == 0x2e && wraps(case.parts[3], layout, range_base, index) => found.push(("sum", out(3, range_base))),
                (0x22, 0x02) if wraps(case.parts[2], layout, location_base, index) => found.push(("sum", out(2, location_base))),
                (0x17, 0x55) if entry.tag == 0x2e && fixed(value).checked_add(case.setting.ranges_base as u64).is_none() => {
                    let far = if case.setting.ranges_base >> 63 == 0 { u64::MAX >> 1 } else { 0 };
                    found.push(("sum", changes(0, a.at, layout.offset(far))))
                }
                (0x18, _) => {
                    let skip = uleb(value).map_or(0, |v| v.1);
                    if let Some((place, code)) = odd_operation(reader(&value[skip..]), encoding) {
                        found.push(("operation", vec![Change(0, a.at + skip + place, code)]));
                    }
                }
                (0x17, 0x02) => list = Some(fixed(value) as usize),
                (0x22, 0x02) => {
                    let index = gimli::DebugLocListsIndex(index as usize);
                    let base = gimli::DebugLocListsBase(location_base as usize);
                    list = locations.lists.get_offset(encoding, base, index).ok().map(|o| o.0);
                }
                _ => {}
            }
            let Some(list) = list else { continue };
            let expressions = match layout.older {
                false => locations.expressions(list),
                true if list > section.len() => vec![],
                true => {
                    let read = locations.older(list);
                    anew = anew.or(read.rule);
                    read.expressions
                }
            };
            for expression in expressions {
                if let Some((place, code)) = odd_operation(reader(&case.parts[2][expression.clone()]), encoding) {
                    found.push(("operation", vec![Change(2, expression.start + place, code)]));
                }
            }
        }
    }
    if let Some(rule) = anew {
        found.push((rule, locations.anew(case, layout)));
    }
    found
}

/// A ULEB128 of this width, which is enough.
pub(crate) fn padded(mut value: u64, width: usize) -> Vec<u8> {
    let mut out = Vec::new();
    for i in 0..width {
        out.push(value as u8 & 0x7f | if i + 1 < width { 0x80 } else { 0 });
        value >>= 7;
    }
    out
}

/// What of the listed is written, where something is dead.
pub(crate) fn writing(case: &Case<'_>, unit: &Unit) -> BTreeSet<&'static str> {
    let mut rules = BTreeSet::new();
    let bytes = case.parts[0];
    let marks: HashMap<usize, char> = case.marks.iter().copied().collect();
    if !marks.values().any(|m| *m == 'D') {
        return rules;
    }
    let fixed = |bytes: &[u8]| order::fixed(unit.layout.order, bytes);
    let kept = |item: &unit::Item| marks.get(&item.start).is_some_and(|m| *m != 'D');
    let mut map: BTreeMap<usize, (usize, usize)> = BTreeMap::new();
    let mut open: Vec<bool> = Vec::new();
    let mut place = unit.first;
    let mut owners: Vec<(&unit::Item, usize)> = Vec::new();
    for item in &unit.items {
        match &item.entry {
            None => {
                if open.pop() == Some(true) {
                    map.insert(item.start, (place, open.len() + 1));
                    if item.end - item.start > 1 {
                        rules.insert("padded");
                    }
                    place += 1;
                }
            }
            Some(entry) => {
                if kept(item) {
                    map.insert(item.start, (place, open.len()));
                    owners.push((item, open.len()));
                    place += item.end - item.start;
                }
                if entry.children {
                    open.push(kept(item));
                }
            }
        }
    }
    if unit.items.last().is_some_and(|i| i.entry.is_some() && kept(i)) {
        rules.insert("last");
    }
    for (item, depth) in owners {
        let Some(entry) = &item.entry else { continue };
        for a in &entry.attributes {
            let value = &bytes[a.at..a.end];
            if a.form == 0x27 && !case.setting.type_units {
                rules.insert("strx3");
            }
            if !matches!(a.form, 0x11..=0x15) {
                continue;
            }
            let old = if a.form == 0x15 { uleb(value).map_or(0, |v| v.0) } else { fixed(value) };
            if a.form == 0x15 && natural(old) < value.len() {
                rules.insert("padded");
            }
            if a.name == 0x01 && !map.contains_key(&(old as usize)) {
                let new = map.range(old as usize..).find(|(_, v)| v.1 <= depth).map_or(0, |(_, v)| v.0 as u64);
                let bits = value.len() * if a.form == 0x15 { 7 } else { 8 };
                if bits < 64 && new >> bits != 0 {
                    rules.insert("value");
                }
            }
        }
    }
    rules
}

/// The rules that match a case.
pub fn rules(case: &Case<'_>) -> BTreeSet<&'static str> {
    if case.parts[0].is_empty() {
        return BTreeSet::new();
    }
    let order = case.setting.order();
    match unit::header(case.parts[0], order) {
        0 => match unit::read(case.parts, order, case.met) {
            Ok(Some(unit)) => {
                let mut rules = writing(case, &unit);
                rules.extend(reading(case, &unit).into_iter().map(|f| f.0));
                rules
            }
            _ => BTreeSet::new(),
        },
        2 => BTreeSet::from(["header"]),
        _ => BTreeSet::new(),
    }
}
