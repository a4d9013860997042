//! A unit as a list of its items, read by gimli: what the rules of `listed` and the answers of `expected` are told from.

use crate::judge::Sections;
use crate::order::{fixed, Layout, Order, ESCAPE};
use gimli::{EndianSlice, Reader};

pub(crate) type Slice<'a> = EndianSlice<'a, Order>;

pub(crate) struct Attribute {
    pub(crate) name: u16,
    /// The form that the abbreviation declares, and the form found, behind indirect too.
    pub(crate) declared: u16,
    pub(crate) form: u16,
    /// Behind indirect: where the number of the form found starts.
    pub(crate) number: Option<usize>,
    /// Where the value starts, behind form numbers, and where it ends.
    pub(crate) at: usize,
    pub(crate) end: usize,
}

pub(crate) struct Entry {
    pub(crate) code: u64,
    pub(crate) tag: u16,
    pub(crate) children: bool,
    pub(crate) attributes: Vec<Attribute>,
}

/// An entry, or a terminator, of the unit.
pub(crate) struct Item {
    pub(crate) start: usize,
    pub(crate) end: usize,
    pub(crate) entry: Option<Entry>,
}

/// The first unit of a section, up to the last entry that was met.
pub(crate) struct Unit {
    pub(crate) layout: Layout,
    pub(crate) encoding: gimli::Encoding,
    /// Where the first item starts.
    pub(crate) first: usize,
    pub(crate) items: Vec<Item>,
}

/// The specification's number for the header, 0 where it is fine.
pub fn header(section: &[u8], order: Order) -> u8 {
    let Some((front, rest)) = section.split_first_chunk::<4>() else { return 1 };
    let (length, rest) = match fixed(order, front) {
        _ if *front == ESCAPE => match rest.split_first_chunk::<8>() {
            Some((length, rest)) => (fixed(order, length), rest),
            None => return 1,
        },
        0xffff_fff0.. => return 2,
        length => (length, rest),
    };
    if length > rest.len() as u64 {
        return 1;
    }
    let unit = &rest[..length as usize];
    let word = Layout::of(order, section).word();
    let sized = |at: usize| matches!(unit[at], 4 | 8);
    match unit.get(..2).map(|version| fixed(order, version)) {
        None => 1,
        Some(4) if unit.len() < 3 + word => 1,
        Some(4) => if sized(2 + word) { 0 } else { 2 },
        Some(5) if unit.len() < 3 => 1,
        Some(5) if !matches!(unit[2], 1 | 5) => 2,
        Some(5) if unit.len() < 4 => 1,
        Some(5) if !sized(3) => 2,
        Some(5) => u8::from(unit.len() < 4 + word + if unit[2] == 5 { 8 } else { 0 }),
        Some(_) => 2,
    }
}

/// The same in either byte order.
pub(crate) fn uleb(bytes: &[u8]) -> Option<(u64, usize)> {
    let mut reader = EndianSlice::new(bytes, Order::Little);
    let value = reader.read_uleb128().ok()?;
    Some((value, bytes.len() - reader.len()))
}

fn attribute(section: &[u8], spec: &gimli::AttributeSpecification, start: usize, end: usize) -> Option<Attribute> {
    let declared = spec.form().0;
    let (mut form, mut at, mut number) = (declared, start, None);
    while form == 0x16 {
        let (value, width) = uleb(&section[at..end])?;
        number = Some(at);
        form = value as u16;
        at += width;
    }
    Some(Attribute { name: spec.name().0, declared, form, number, at, end })
}

/// The items up to the last of `met` entries; none where the section holds no unit.
pub(crate) fn read(parts: Sections<'_>, order: Order, met: usize) -> gimli::Result<Option<Unit>> {
    let reader = |i: usize| EndianSlice::new(parts[i], order);
    let section = gimli::DebugInfo::from(reader(0));
    let Some(header) = section.units().next()? else { return Ok(None) };
    let table = header.abbreviations(&gimli::DebugAbbrev::from(reader(1)))?;
    let encoding = header.encoding();
    let layout = Layout::of(order, parts[0]);
    let mut unit = Unit { layout, encoding, first: header.size_of_header(), items: Vec::new() };
    let mut left = met;
    let mut entries = header.entries_raw(&table, None)?;
    while !entries.is_empty() {
        let start = entries.next_offset().0;
        let Some(abbreviation) = (match entries.read_abbreviation() {
            Ok(a) => a,
            Err(_) => return Ok(Some(unit)),
        }) else {
            unit.items.push(Item { start, end: entries.next_offset().0, entry: None });
            continue;
        };
        if left == 0 {
            return Ok(Some(unit));
        }
        left -= 1;
        let mut attributes = Vec::new();
        for spec in abbreviation.attributes() {
            let at = entries.next_offset().0;
            if entries.read_attribute(*spec).is_err() {
                return Ok(Some(unit));
            }
            match attribute(parts[0], spec, at, entries.next_offset().0) {
                Some(found) => attributes.push(found),
                None => return Ok(Some(unit)),
            }
        }
        let entry = Entry {
            code: abbreviation.code(),
            tag: abbreviation.tag().0,
            children: abbreviation.has_children(),
            attributes,
        };
        unit.items.push(Item { start, end: entries.next_offset().0, entry: Some(entry) });
    }
    Ok(Some(unit))
}

/// Where the form numbers of an abbreviation's attributes start, in a table that can be read.
pub(crate) fn form_places(table: &[u8], from: usize, code: u64) -> Option<Vec<usize>> {
    let mut at = from;
    // The value is cut to 64 bits, for a constant may be a SLEB128.
    let mut next = || {
        let start = at;
        let width = 1 + table.get(at..)?.iter().position(|b| b & 0x80 == 0)?;
        at += width;
        let value = table[start..at].iter().take(9).enumerate().fold(0, |n, (i, b)| n | u64::from(b & 0x7f) << (7 * i));
        Some((value | if width == 10 { u64::from(table[at - 1]) << 63 } else { 0 }, start))
    };
    loop {
        let found = next()?.0;
        if found == 0 {
            return None;
        }
        next()?;
        // The children byte is 0 or 1, so a ULEB128 of its own.
        next()?;
        let mut places = Vec::new();
        loop {
            let (name, (form, place)) = (next()?.0, next()?);
            if (name, form) == (0, 0) {
                break;
            }
            places.push(place);
            if form == 0x21 {
                next()?;
            }
        }
        if found == code {
            return Some(places);
        }
    }
}
