//! Sits inside gc.rs's module, so that its private names are seen: takes down what the answer does not carry.

use super::*;
use std::cell::{Cell, RefCell};
use std::collections::BTreeMap;

/// What one run of `gc_debug_info` let be seen.
#[derive(Clone, Default)]
pub(crate) struct Seen {
    /// Entries whose attributes were read.
    pub(crate) met: usize,
    /// How many references each entry has, before any mark.
    pub(crate) references: Vec<usize>,
    /// Old offset and letter of each entry in stream order.
    pub(crate) marks: Vec<(usize, char)>,
}

thread_local! {
    static SEEN: RefCell<Seen> = RefCell::default();
    static FIXED_ADDRESSES: Cell<bool> = const { Cell::new(false) };
    static KEEP_LIST: RefCell<BTreeMap<u16, u8>> = const { RefCell::new(BTreeMap::new()) };
}

/// What was taken down since a run began, or it was last taken.
pub(crate) fn taken() -> Seen {
    SEEN.take()
}

/// A run begins, in which fixed addresses count, or do not, and tags have these treatments.
pub(crate) fn begin(fixed_addresses: bool, keep_list: BTreeMap<u16, u8>) {
    SEEN.take();
    FIXED_ADDRESSES.set(fixed_addresses);
    KEEP_LIST.set(keep_list);
}

/// Whether fixed addresses count in this run: asked at each DW_OP_addr of a variable's location.
pub(super) fn fixed_addresses() -> bool {
    FIXED_ADDRESSES.get()
}

/// Whether an entry with this tag is a root, where its root test says so.
pub(super) fn treated(tag: gimli::DwTag, root: bool) -> bool {
    match KEEP_LIST.with_borrow(|list| list.get(&tag.0).copied()) {
        Some(1) => true,
        Some(2) => false,
        _ => root,
    }
}

/// Called when an entry's attributes are read, before its root test.
pub(super) fn entry(index: usize) {
    SEEN.with_borrow_mut(|s| s.met = index + 1);
}

/// Called when an entry's references are read.
pub(super) fn edges(edges: &[gimli::UnitOffset]) {
    SEEN.with_borrow_mut(|s| s.references.push(edges.len()));
}

/// Called when the marks are final.
pub(super) fn marks(dies: &[DieRecord], places: &HashMap<gimli::UnitOffset, usize>) {
    let mut marks: Vec<(usize, char)> = places
        .iter()
        .map(|(offset, &i)| {
            let letter = match dies[i].liveness {
                Liveness::Dead => 'D',
                Liveness::Live => 'L',
                Liveness::Retained => 'R',
            };
            (offset.0, letter)
        })
        .collect();
    marks.sort_unstable();
    SEEN.with_borrow_mut(|s| s.marks = marks);
}

/// `walk_expression` alone: place, old offset and width of each reference, in the order of the walk, and whether it is a ULEB128.
pub(crate) fn references(bytes: &[u8], encoding: gimli::Encoding, order: RunTimeEndian) -> Result<Vec<(usize, u64, usize, bool)>> {
    let expression = gimli::EndianSlice::new(bytes, order);
    let mut found: Vec<ExprRef> = Vec::new();
    let mut absolute = false;
    walk_expression(gimli::Expression(expression), 0, encoding, &mut |r| found.push(r), &mut |_| {
        absolute = true
    })?;
    if absolute {
        return Err(Error::UnexpectedSectionAbsoluteReference);
    }
    found
        .iter()
        .map(|r| {
            let width = match r.enc {
                ExprRefEnc::U2 => 2,
                ExprRefEnc::U4 => 4,
                ExprRefEnc::Uleb => uleb128_len(expression.range_from(r.pos..))?,
            };
            Ok((r.pos, r.old.0 as u64, width, matches!(r.enc, ExprRefEnc::Uleb)))
        })
        .collect()
}

/// `write_uleb128_padded` alone; a ULEB128 is the same in either byte order.
pub(crate) fn padded(value: u64, width: usize) -> Result<Vec<u8>> {
    let mut out = EndianVec::new(RunTimeEndian::Little);
    write_uleb128_padded(&mut out, gimli::UnitOffset(value as usize), width)?;
    Ok(out.into_vec())
}
