//! A maker's keep list (document 02, Point 10), which gc.rs lacks: what the change request says of one, read from its words alone, and lists
//! made by dice.

use crate::cases::{Dice, Parts};
use crate::order::{fixed, Layout, Order};
use std::collections::{BTreeMap, BTreeSet};
use std::fmt;

/// A list as it is lent: tags of two big-endian bytes in any unit's byte order, and treatments of one. A byte short of a whole tag counts for
/// nothing.
#[derive(Clone, Copy, Default)]
pub struct KeepList<'a> {
    pub tags: &'a [u8],
    pub treatments: &'a [u8],
}

impl KeepList<'_> {
    fn numbers(&self) -> Vec<u16> {
        self.tags.chunks_exact(2).map(|tag| u16::from_be_bytes([tag[0], tag[1]])).collect()
    }

    pub fn is_out_of_order(&self) -> bool {
        self.numbers().windows(2).any(|pair| pair[1] <= pair[0])
    }

    /// "19, a treatment other than 1 or 2, or not one for each tag; 20, a tag not above the one before it; .. 19 first over the whole list".
    pub fn refusal(&self) -> Option<u8> {
        let tags = self.numbers();
        if self.treatments.len() != tags.len() || self.treatments.iter().any(|t| !matches!(t, 1 | 2)) {
            return Some(19);
        }
        self.is_out_of_order().then_some(20)
    }

    /// The treatment of each tag, of a list that is not refused.
    pub fn by_tag(&self) -> BTreeMap<u16, u8> {
        self.numbers().into_iter().zip(self.treatments.iter().copied()).collect()
    }
}

impl fmt::Debug for KeepList<'_> {
    /// As the programs are given it.
    fn fmt(&self, f: &mut fmt::Formatter<'_>) -> fmt::Result {
        let shown = |bytes: &[u8]| bytes.iter().map(|b| format!("{b:02x}")).collect::<String>();
        write!(f, "--tags {:?} --treatments {:?}", shown(self.tags), shown(self.treatments))
    }
}

/// A list of one's own.
#[derive(Clone, Default)]
pub struct Owned {
    pub tags: Vec<u8>,
    pub treatments: Vec<u8>,
}

impl Owned {
    pub fn lent(&self) -> KeepList<'_> {
        KeepList { tags: &self.tags, treatments: &self.treatments }
    }
}

/// What units have most: units, subprograms, variables, types, blocks, structures, enumerations and their values, parameters, members,
/// namespaces, type units.
const COMMON: [u16; 12] = [0x11, 0x2e, 0x34, 0x24, 0x0b, 0x13, 0x04, 0x28, 0x05, 0x0d, 0x39, 0x41];

/// A LEB128 number, cut to 64 bits.
fn number(bytes: &[u8], at: &mut usize) -> Option<u64> {
    let (mut n, mut shift) = (0, 0);
    loop {
        let byte = *bytes.get(*at)?;
        *at += 1;
        if shift < 64 {
            n |= u64::from(byte & 0x7f) << shift;
        }
        shift += 7;
        if byte < 0x80 {
            return Some(n);
        }
    }
}

/// The tags that the unit's abbreviations declare, as far as they can be read.
fn declared(parts: &Parts, order: Order) -> BTreeSet<u16> {
    let mut tags = BTreeSet::new();
    let (unit, bytes) = (&parts[0], &parts[1][..]);
    let mut at = unit.get(Layout::of(order, unit).abbreviations()).map_or(0, |offset| fixed(order, offset) as usize);
    let mut read = || -> Option<()> {
        loop {
            if number(bytes, &mut at)? == 0 {
                return None;
            }
            tags.extend(u16::try_from(number(bytes, &mut at)?));
            number(bytes, &mut at)?;
            loop {
                let (name, form) = (number(bytes, &mut at)?, number(bytes, &mut at)?);
                match (name, form) {
                    (0, 0) => break,
                    (_, 0x21) => drop(number(bytes, &mut at)?),
                    _ => {}
                }
            }
        }
    };
    read();
    tags
}

/// Tags with a treatment each.
fn listed(pairs: &[(u16, u8)]) -> Owned {
    Owned { tags: pairs.iter().flat_map(|p| p.0.to_be_bytes()).collect(), treatments: pairs.iter().map(|p| p.1).collect() }
}

/// A list for a case: mostly of tags that the unit has, ascending, with both treatments; one in sixteen has faults; one in 5,000 has every tag.
pub fn diced(dice: &mut Dice, parts: &Parts, order: Order) -> Owned {
    let every = dice.rare(5000);
    let mut tags = BTreeSet::new();
    if every {
        tags.extend(0..=u16::MAX);
    } else {
        let held = declared(parts, order);
        for tag in held.iter().copied() {
            // With the unit's own as a root nothing is dropped: seldom.
            if dice.rare(if let 0x11 | 0x41 = tag { 8 } else { 2 }) {
                tags.insert(tag);
            }
            // Beside it, and with its bytes the other way round.
            if dice.rare(10) {
                tags.insert(dice.of(&[tag.wrapping_sub(1), tag.wrapping_add(1), tag.swap_bytes(), tag ^ 0x100]));
            }
        }
        tags.extend(COMMON.iter().copied().filter(|_| dice.rare(10)));
        tags.extend([0, u16::MAX].into_iter().filter(|_| dice.rare(12)));
        if tags.is_empty() && !dice.rare(8) {
            tags.insert(held.first().copied().unwrap_or_else(|| dice.of(&COMMON)));
        }
    }
    let only = dice.below(6) as u8;
    let mut pairs: Vec<(u16, u8)> = tags.into_iter().map(|tag| (tag, if let 1 | 2 = only { only } else { 1 + dice.below(2) as u8 })).collect();
    let fault = if dice.rare(16) { 1 + dice.below(12) } else { 0 };
    if let 4..=8 | 11.. = fault {
        disorder(dice, &mut pairs);
    }
    let mut list = listed(&pairs);
    match fault {
        // A treatment that there is not; of 5 and 6 in a list that is out of order too, before or behind.
        1 | 5 | 6 if !pairs.is_empty() => {
            let place = dice.below(pairs.len());
            list.treatments[place] = dice.of(&[0, 0, 3, 3, 4, 0x80, 0x81, 0xfe, 0xff]);
        }
        // Too many, too few, none, or treatments alone.
        2 | 7 => list.treatments.extend(vec![1 + dice.below(2) as u8; dice.of(&[1, 1, 1, 2, 256])]),
        3 | 8 => drop(list.treatments.pop()),
        9 => list.treatments.clear(),
        10 => list.tags.clear(),
        _ => {}
    }
    if dice.rare(if fault == 2 || fault == 10 { 2 } else { 6 }) {
        list.tags.push(dice.of(&[0, 1, 0x11, 0x2e, 0xff]));
    }
    list
}

/// A list out of order: a tag twice, two the wrong way round, or all of them.
fn disorder(dice: &mut Dice, pairs: &mut Vec<(u16, u8)>) {
    if pairs.is_empty() {
        pairs.push((dice.of(&COMMON), 1));
    }
    let place = dice.below(pairs.len());
    match dice.below(4) {
        0 if pairs.len() > 1 => pairs.reverse(),
        1 if place > 0 => pairs.swap(place - 1, place),
        2 if pairs[place].0 > 0 => pairs.push((dice.below(usize::from(pairs[place].0)) as u16, 2)),
        _ => pairs.insert(place, (pairs[place].0, 1 + dice.below(2) as u8)),
    }
}
