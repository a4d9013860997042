//! Numbers of a fixed width, and where the fields of a unit stand, by the byte order, the format and the version of a
//! case.

use gimli::{Endianity, RunTimeEndian};
use std::ops::Range;

pub type Order = RunTimeEndian;

pub fn order(big_endian: bool) -> Order {
    if big_endian { Order::Big } else { Order::Little }
}

/// A number in so many bytes, its low ones.
pub fn fixed_bytes(order: Order, n: u64, width: usize) -> Vec<u8> {
    match order.is_big_endian() {
        true => n.to_be_bytes()[8 - width..].to_vec(),
        false => n.to_le_bytes()[..width].to_vec(),
    }
}

/// The number that so many bytes hold.
pub fn fixed(order: Order, bytes: &[u8]) -> u64 {
    let joined = |n, b: &u8| n << 8 | u64::from(*b);
    match order.is_big_endian() {
        true => bytes.iter().fold(0, joined),
        false => bytes.iter().rev().fold(0, joined),
    }
}

/// What stands before the length of a unit of the 64-bit format.
pub const ESCAPE: [u8; 4] = [0xff; 4];

/// The byte order; the format, 64-bit where it is wide, else 32-bit; the version, 4 where it is older, else 5.
#[derive(Clone, Copy, PartialEq, Eq, Debug)]
pub struct Layout {
    pub order: Order,
    pub wide: bool,
    pub older: bool,
}

impl Layout {
    pub fn new(big_endian: bool, wide: bool, older: bool) -> Self {
        Layout { order: order(big_endian), wide, older }
    }

    /// That of a section with a unit: its first bytes tell the format, and those behind the length the version. gimli
    /// reads every version below 5 as it reads 4.
    pub fn of(order: Order, section: &[u8]) -> Self {
        let newer = Layout { order, wide: section.starts_with(&ESCAPE), older: false };
        let version = section.get(newer.version()..newer.version() + 2);
        Layout { older: version.is_some_and(|v| fixed(order, v) < 5), ..newer }
    }

    pub fn bytes(self, n: u64, width: usize) -> Vec<u8> {
        fixed_bytes(self.order, n, width)
    }

    /// How many bytes an offset has.
    pub fn word(self) -> usize {
        if self.wide { 8 } else { 4 }
    }

    pub fn offset(self, n: u64) -> Vec<u8> {
        self.bytes(n, self.word())
    }

    /// How many bytes stand before the version: those of the length.
    pub fn version(self) -> usize {
        if self.wide { 12 } else { 4 }
    }

    /// Where the offset of the abbreviations stands.
    pub fn abbreviations(self) -> Range<usize> {
        let start = self.version() + if self.older { 2 } else { 4 };
        start..start + self.word()
    }

    /// Where the address size stands.
    pub fn address_size(self) -> usize {
        self.version() + if self.older { 2 + self.word() } else { 3 }
    }

    /// Where the first item of a unit stands, in version 5 of one of type 1.
    pub fn first(self) -> usize {
        self.abbreviations().end + usize::from(self.older)
    }

    /// The header of a unit, its length still zeros; in version 5 of type 1.
    pub fn header(self, address_size: u8, abbreviations: u64) -> Vec<u8> {
        let mut out = vec![0; self.first()];
        out[self.version()..self.version() + 2].copy_from_slice(&self.bytes(if self.older { 4 } else { 5 }, 2));
        if !self.older {
            out[self.version() + 2] = 1;
        }
        out[self.address_size()] = address_size;
        out[self.abbreviations()].copy_from_slice(&self.offset(abbreviations));
        out
    }

    /// Where the table of a list section of version 5 starts: the base that is meant where a unit names none. In
    /// version 4 there is no table.
    pub fn table(self) -> usize {
        if self.older { 0 } else { self.version() + 8 }
    }

    /// Which part of a bundle holds the unit's range lists: .debug_ranges in version 4, which is never read in version
    /// 5, or .debug_rnglists, the other way round.
    pub fn ranges(self) -> usize {
        if self.older { 5 } else { 3 }
    }

    /// The part that is not read.
    pub fn unread(self) -> usize {
        Layout { older: !self.older, ..self }.ranges()
    }

    /// Gives a section that has room for it the length field of its unit: all behind it.
    pub fn fit(self, section: &mut [u8]) {
        let start = self.version();
        if section.len() >= start {
            let length = self.offset((section.len() - start) as u64);
            section[..start - self.word()].copy_from_slice(&ESCAPE[..start - self.word()]);
            section[start - self.word()..start].copy_from_slice(&length);
        }
    }
}
