//! One run of `gc_debug_info`, and what it let be seen.

use crate::keep::KeepList;
use crate::order::{order, Layout, Order};
use crate::{error::Error, gc, gc::probe, plain, shims};
use gimli::{
    DebugAbbrev, DebugInfo, DebugLoc, DebugLocLists, DebugRanges, DebugRngLists, DebugRngListsBase,
    EndianSlice, LocationLists, RangeLists, Reader as _,
};
use std::any::Any;
use std::cell::Cell;
use std::collections::BTreeSet;
use std::fmt::Write as _;
use std::panic::{self, AssertUnwindSafe};

/// What a case leaves to the caller.
#[derive(Clone, Copy, Default, Debug)]
pub struct Setting<'a> {
    pub type_units: bool,
    pub ranges_base: usize,
    /// Fixed-width fields of the unit and its lists are big-endian, else little-endian.
    pub big_endian: bool,
    /// A DW_OP_addr in a variable's location that is no tombstone makes a root; gc.rs knows no such roots.
    pub fixed_addresses: bool,
    /// Which tags are always roots, and which never; gc.rs knows no such list.
    pub keep: KeepList<'a>,
}

impl Setting<'_> {
    pub fn order(&self) -> Order {
        order(self.big_endian)
    }
}

/// The sections of a bundle: unit, abbreviations, location lists, range lists of version 5 (.debug_rnglists), address
/// table, range lists of version 4 (.debug_ranges).
pub type Sections<'a> = [&'a [u8]; 6];

/// Numbers of an index list, or none where it is absent.
pub type List = Option<BTreeSet<u64>>;

#[derive(PartialEq, Eq, Debug)]
pub struct Answer {
    /// The new unit, none where nothing is dead.
    pub rewritten: Option<Vec<u8>>,
    /// Old offset, new offset, depth.
    pub map: Vec<(usize, usize, usize)>,
    /// Ranges, locations, strings.
    pub lists: [List; 3],
}

pub enum Outcome {
    Answer(Answer),
    /// The number of the specification, where there is one (1 stands for 1 and 2), and the error's names.
    Error(Option<u8>, String),
    Panic(String),
}

pub struct Judged {
    pub outcome: Outcome,
    /// Entries whose attributes were read.
    pub met: usize,
    /// Number of references of each entry whose references were read.
    pub references: Vec<usize>,
    /// Old offset and letter of each entry in stream order, once the marks are final.
    pub marks: Vec<(usize, char)>,
    /// How often an index of the address table was asked for.
    pub asked: usize,
}

impl Judged {
    pub fn all_references(&self) -> usize {
        self.references.iter().sum()
    }

    pub fn kept(&self) -> usize {
        self.marks.iter().filter(|m| m.1 != 'D').count()
    }

    /// The line that README.md describes.
    pub fn line(&self) -> String {
        let answer = match &self.outcome {
            Outcome::Panic(said) => return format!("panic {said}"),
            Outcome::Error(_, names) => return format!("error {names}"),
            Outcome::Answer(answer) => answer,
        };
        let marks: Vec<String> = self.marks.iter().map(|(o, m)| format!("{o}{m}")).collect();
        format!(
            "{} entries {} kept {} references {} marks {} {}",
            if answer.rewritten.is_some() { "rewritten" } else { "untouched" },
            self.marks.len(),
            self.kept(),
            self.all_references(),
            or_dash(marks.join(",")),
            answer.shown(),
        )
    }
}

impl Answer {
    /// Map, lists and bytes, as in a line.
    pub fn shown(&self) -> String {
        let map: Vec<String> = self.map.iter().map(|(old, new, depth)| format!("{old}>{new}@{depth}")).collect();
        format!(
            "map {} ranges {} locations {} strings {} bytes {}",
            or_dash(map.join(",")),
            indices(&self.lists[0]),
            indices(&self.lists[1]),
            indices(&self.lists[2]),
            or_dash(self.rewritten.as_deref().map_or_else(String::new, hex)),
        )
    }
}

fn indices(list: &List) -> String {
    match list {
        None => "absent".to_string(),
        Some(set) => {
            let shown: Vec<String> = set.iter().map(u64::to_string).collect();
            format!("[{}]", shown.join(","))
        }
    }
}

pub fn hex(bytes: &[u8]) -> String {
    bytes.iter().fold(String::with_capacity(2 * bytes.len()), |mut s, b| {
        let _ = write!(s, "{b:02x}");
        s
    })
}

/// Bytes of pairs of digits, with spaces anywhere.
pub fn unhex(text: &str) -> Option<Vec<u8>> {
    let digits: Vec<u8> =
        text.chars().filter(|c| !c.is_whitespace()).map(|c| c.to_digit(16).map(|d| d as u8)).collect::<Option<_>>()?;
    if digits.len() % 2 == 1 {
        return None;
    }
    Some(digits.chunks(2).map(|d| d[0] << 4 | d[1]).collect())
}

pub fn or_dash(shown: String) -> String {
    if shown.is_empty() { "-".to_string() } else { shown }
}

/// What a panic said, on one line.
pub fn said(panic: Box<dyn Any + Send>) -> String {
    let text = match panic.downcast::<String>() {
        Ok(text) => *text,
        Err(panic) => panic.downcast::<&str>().map_or("?".to_string(), |t| t.to_string()),
    };
    text.split_whitespace().collect::<Vec<_>>().join(" ")
}

fn number(error: &Error) -> Option<u8> {
    Some(match error {
        Error::ParseUnitHeader(_) => 1,
        Error::ParseUnitAbbreviations(_) => 3,
        Error::ParseUnit(_) => 4,
        // The last kept entry ends where the unit ends.
        Error::Read(gimli::Error::OffsetOutOfBounds) => return None,
        Error::Read(_) => 5,
        Error::Address => 6,
        Error::AddressPastEnd => 17,
        Error::UnexpectedSectionAbsoluteReference => 7,
        Error::MalformedDebugInfo => 8,
        _ => return None,
    })
}

/// The resolver: what the address table says of an index, or which way it fails. Of an empty table, always live; of no
/// other.
fn resolved(table: &[u8], index: usize) -> Result<bool, Error> {
    if table.is_empty() {
        return Ok(true);
    }
    match table.get(index) {
        Some(0) => Ok(false),
        Some(1) => Ok(true),
        Some(_) => Err(Error::Address),
        None => Err(Error::AddressPastEnd),
    }
}

/// A section of location lists: .debug_loc.dwo of version 4, else .debug_loclists.dwo.
pub(crate) fn location_lists(section: EndianSlice<'_, Order>, older: bool) -> LocationLists<EndianSlice<'_, Order>> {
    let empty = EndianSlice::new(&[][..], section.endian());
    let [bare, listed] = if older { [section, empty] } else { [empty, section] };
    LocationLists::new(DebugLoc::from(bare), DebugLocLists::from(listed))
}

/// Calls `gc_debug_info` of a module on the sections of a bundle, with this resolver. The location lists are those of
/// the unit's version.
macro_rules! original {
    ($module:ident, $parts:expr, $setting:expr, $resolver:expr) => {{
        let (parts, setting): (Sections<'_>, Setting<'_>) = ($parts, $setting);
        let reader = |i: usize| EndianSlice::new(parts[i], setting.order());
        let older = Layout::of(setting.order(), parts[0]).older;
        $module::gc_debug_info(
            DebugInfo::from(reader(0)),
            DebugAbbrev::from(reader(1)),
            location_lists(reader(2), older),
            RangeLists::new(DebugRanges::from(reader(5)), DebugRngLists::from(reader(3))),
            DebugRngListsBase(setting.ranges_base),
            $resolver,
            shims::DwoId(0),
            setting.type_units,
        )
    }};
}

fn outcome(parts: Sections<'_>, setting: Setting<'_>, asked: &Cell<usize>) -> Outcome {
    let resolver = |index: gimli::DebugAddrIndex<usize>| {
        asked.set(asked.get() + 1);
        resolved(parts[4], index.0)
    };
    match original!(gc, parts, setting, resolver) {
        Err(e) => Outcome::Error(number(&e), e.to_string()),
        Ok(a) => Outcome::Answer(Answer {
            rewritten: a.rewritten.map(|v| v.into_vec()),
            map: a.offset_remap.into_iter().flatten().map(|(old, (new, depth))| (old.0, new.0, depth)).collect(),
            lists: [a.referenced_rnglists, a.referenced_loclists, a.referenced_str_offsets],
        }),
    }
}

/// The original without the hook, its result freed: what is measured. The new unit's length, 0 where untouched, or none.
/// Fixed addresses do not count here, and there is no keep list.
pub fn measured(parts: Sections<'_>, setting: Setting<'_>) -> Option<usize> {
    let resolver = |index: gimli::DebugAddrIndex<usize>| resolved(parts[4], index.0);
    let answer = original!(plain, parts, setting, resolver).ok()?;
    Some(answer.rewritten.as_ref().map_or(0, |v| v.slice().len()))
}

/// Runs the original on the sections of a bundle; not where the keep list is refused, for that comes before the unit is looked at.
pub fn judge(parts: Sections<'_>, setting: Setting<'_>) -> Judged {
    if let Some(n) = setting.keep.refusal() {
        let outcome = Outcome::Error(Some(n), if n == 19 { "Treatments" } else { "TagOrder" }.to_string());
        return Judged { outcome, met: 0, references: vec![], marks: vec![], asked: 0 };
    }
    probe::begin(setting.fixed_addresses, setting.keep.by_tag());
    let asked = Cell::new(0);
    let outcome = panic::catch_unwind(AssertUnwindSafe(|| outcome(parts, setting, &asked)));
    let seen = probe::taken();
    Judged {
        outcome: outcome.unwrap_or_else(|p| Outcome::Panic(said(p))),
        met: seen.met,
        references: seen.references,
        marks: seen.marks,
        asked: asked.get(),
    }
}

/// `walk_expression` alone: place, old offset and width of each reference in the order of the walk, and whether it is a ULEB128.
pub fn references(bytes: &[u8], encoding: gimli::Encoding, order: Order) -> Result<Vec<(usize, u64, usize, bool)>, String> {
    probe::references(bytes, encoding, order).map_err(|e| e.to_string())
}

/// `write_uleb128_padded` alone.
pub fn padded(value: u64, width: usize) -> Result<Vec<u8>, String> {
    probe::padded(value, width).map_err(|e| e.to_string())
}

/// `is_tombstone` alone.
pub fn tombstone(address: u64, size: u8) -> bool {
    gc::is_tombstone(address, size)
}
