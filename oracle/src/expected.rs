//! What the port has to answer. The original reads, tests roots and marks, on an input changed so that it reads the listed things as the port
//! does (`listed`); what is written then is worked out here, from the marks and the specification's words alone. Where no rule matches, that must be the
//! original's own answer.

use crate::cases::{slices, Parts};
use crate::judge::{self, Answer, Judged, List, Outcome, Sections, Setting};
use crate::listed::{self, padded, Case, Change};
use crate::order::{fixed, fixed_bytes, Layout, Order};
use crate::unit::{self, header, uleb, Attribute, Unit};
use std::collections::{BTreeMap, BTreeSet, HashMap};

/// What an accepted unit comes to, whatever is lent.
pub struct Plan {
    pub entries: usize,
    pub kept: usize,
    pub dead: bool,
    /// Ranges, locations, strings.
    pub lists: [List; 3],
    /// Old offset, new offset, depth; and the size of the new unit. Nothing where nothing is dead.
    pub map: Vec<(usize, usize, usize)>,
    pub size: usize,
    /// The new unit, or 8 or 9.
    pub output: Result<Vec<u8>, u8>,
}

pub struct Expected {
    /// Entries met, and the references of each whose references were read.
    pub met: usize,
    pub references: Vec<usize>,
    /// A refusal of the keep list, 19 or 20, or of the reading, 1 to 7 or 17, or what comes after.
    pub read: Result<Plan, u8>,
    /// The listed differences that the case can show.
    pub rules: BTreeSet<&'static str>,
}

/// What is lent, in elements: entries, references, map places, numbers of each list, bytes.
#[derive(Clone, Copy, Debug)]
pub struct Room {
    pub entries: usize,
    pub references: usize,
    pub map: usize,
    pub lists: [usize; 3],
    pub output: usize,
}

impl Expected {
    /// The answer for what is lent, by the order of the specification's numbers.
    pub fn answer(&self, room: &Room) -> Result<&Plan, u8> {
        if !matches!(self.read, Err(1..=3)) {
            let mut references = 0;
            for i in 0..self.met {
                if i >= room.entries {
                    return Err(10);
                }
                references += self.references.get(i).unwrap_or(&0);
                if references > room.references {
                    return Err(11);
                }
            }
        }
        let plan = self.read.as_ref().map_err(|n| *n)?;
        if plan.lists.iter().zip(room.lists).any(|(list, room)| list.as_ref().is_some_and(|l| l.len() > room)) {
            return Err(12);
        }
        if plan.map.len() > room.map {
            return Err(13);
        }
        if plan.size > room.output {
            return Err(14);
        }
        plan.output.as_ref().map(|_| plan).map_err(|n| *n)
    }

    /// Whether the original's own answer is this one, nothing lent being short.
    pub fn is(&self, judged: &Judged, section: &[u8], order: Order) -> bool {
        match (&judged.outcome, &self.read) {
            (Outcome::Error(Some(1), _), Err(n)) => *n == header(section, order),
            (Outcome::Error(Some(n), _), Err(m)) => n == m,
            (Outcome::Error(Some(n), _), Ok(plan)) => plan.output.as_ref().err() == Some(n),
            (Outcome::Answer(answer), Ok(plan)) => {
                let Ok(output) = &plan.output else { return false };
                judged.marks.len() == plan.entries
                    && judged.kept() == plan.kept
                    && *answer
                        == Answer {
                            rewritten: plan.dead.then(|| output.clone()),
                            map: plan.map.clone(),
                            lists: plan.lists.clone(),
                        }
            }
            _ => false,
        }
    }
}

/// The kinds of index lists, by form.
fn list_of(form: u16) -> Option<usize> {
    match form {
        0x23 => Some(0),
        0x22 => Some(1),
        0x1a | 0x1f02 | 0x25..=0x28 => Some(2),
        _ => None,
    }
}

fn index_of(form: u16, value: &[u8], order: Order) -> u64 {
    if form >= 0x25 && form <= 0x28 { fixed(order, value) } else { uleb(value).map_or(0, |v| v.0) }
}

fn lists(unit: &Unit, bytes: &[u8], kept: &dyn Fn(usize) -> bool, type_units: bool) -> [List; 3] {
    let mut lists: [List; 3] = if type_units { [None, None, None] } else { [(); 3].map(|_| Some(BTreeSet::new())) };
    for item in &unit.items {
        let Some(entry) = &item.entry else { continue };
        for a in &entry.attributes {
            match (a.declared, a.name) {
                (0x17, 0x55) => lists[0] = None,
                (0x17, 0x02) => lists[1] = None,
                _ => {}
            }
        }
    }
    for item in unit.items.iter().filter(|i| kept(i.start)) {
        for a in item.entry.iter().flat_map(|e| &e.attributes) {
            if let Some(list) = list_of(a.form).and_then(|i| lists[i].as_mut()) {
                list.insert(index_of(a.form, &bytes[a.at..a.end], unit.layout.order));
            }
        }
    }
    lists
}

type Map = BTreeMap<u64, (usize, usize)>;

/// The new value of an attribute of an entry at this depth, as wide as the old one.
fn emitted(unit: &Unit, a: &Attribute, value: &[u8], depth: usize, map: &Map, lists: &[List; 3]) -> Result<Vec<u8>, u8> {
    let (width, order) = (value.len(), unit.layout.order);
    if let 0x11..=0x15 = a.form {
        let old = if a.form == 0x15 { uleb(value).map_or(0, |v| v.0) } else { fixed(order, value) };
        let mapped = map.get(&old);
        let found = if a.name == 0x01 { mapped.or_else(|| map.range(old..).map(|p| p.1).find(|p| p.1 <= depth)) } else { mapped };
        let new = found.ok_or(8)?.0 as u64;
        let bits = width * if a.form == 0x15 { 7 } else { 8 };
        if bits < 64 && new >> bits != 0 {
            return Err(9);
        }
        return Ok(if a.form == 0x15 { padded(new, width) } else { fixed_bytes(order, new, width) });
    }
    if a.form == 0x18 {
        let mut out = value.to_vec();
        let start = uleb(value).map_or(0, |v| v.1);
        for (place, old, width, is_uleb) in judge::references(&value[start..], unit.encoding, order).unwrap_or_default() {
            let new = map.get(&old).ok_or(8)?.0 as u64;
            let bytes = if is_uleb { padded(new, width) } else { fixed_bytes(order, new, width) };
            out[start + place..start + place + width].copy_from_slice(&bytes);
        }
        return Ok(out);
    }
    if let Some(list) = list_of(a.form).and_then(|i| lists[i].as_ref()) {
        let index = index_of(a.form, value, order);
        let rank = list.iter().take_while(|i| **i < index).count() as u64;
        return Ok(if a.form >= 0x25 && a.form <= 0x28 { fixed_bytes(order, rank, width) } else { padded(rank, width) });
    }
    Ok(value.to_vec())
}

fn plan(unit: &Unit, bytes: &[u8], marks: &[(usize, char)], type_units: bool) -> Plan {
    let letters: HashMap<usize, char> = marks.iter().copied().collect();
    let kept = |start: usize| letters.get(&start).is_some_and(|m| *m != 'D');
    let entries = marks.len();
    let number = marks.iter().filter(|m| m.1 != 'D').count();
    let dead = number < entries;
    let lists = if entries == 0 { [None, None, None] } else { lists(unit, bytes, &kept, type_units) };
    let mut plan = Plan { entries, kept: number, dead, lists, map: Vec::new(), size: 0, output: Ok(Vec::new()) };
    if !dead {
        return plan;
    }

    // Each kept entry and each terminator of a kept parent, at its own width.
    let mut open: Vec<bool> = Vec::new();
    let mut written = Vec::new();
    let mut place = unit.first;
    for item in &unit.items {
        let depth = open.len();
        let here = match &item.entry {
            None => open.pop() == Some(true),
            Some(entry) => {
                if entry.children {
                    open.push(kept(item.start));
                }
                kept(item.start)
            }
        };
        if here {
            plan.map.push((item.start, place, depth));
            written.push((item, depth));
            place += item.end - item.start;
        }
    }
    plan.size = place;

    let map: Map = plan.map.iter().map(|(old, new, depth)| (*old as u64, (*new, *depth))).collect();
    let mut out = bytes[..unit.first].to_vec();
    for (item, depth) in written {
        let mut at = item.start;
        for a in item.entry.iter().flat_map(|e| &e.attributes) {
            out.extend(&bytes[at..a.at]);
            match emitted(unit, a, &bytes[a.at..a.end], depth, &map, &plan.lists) {
                Ok(value) => out.extend(value),
                Err(n) => {
                    plan.output = Err(n);
                    return plan;
                }
            }
            at = a.end;
        }
        out.extend(&bytes[at..item.end]);
    }
    unit.layout.fit(&mut out);
    plan.output = Ok(out);
    plan
}

/// What the port has to answer where the original answered so.
pub fn expect(parts: Sections<'_>, setting: Setting<'_>, judged: &Judged) -> Expected {
    let refused = |n: u8, rules| Expected { met: 0, references: vec![], read: Err(n), rules };
    // Before the unit is looked at, so of an empty section too.
    if let Some(n) = setting.keep.refusal() {
        return refused(n, BTreeSet::new());
    }
    let order = setting.order();
    if !parts[0].is_empty() {
        match header(parts[0], order) {
            0 => {}
            n => return refused(n, if n == 2 { BTreeSet::from(["header"]) } else { BTreeSet::new() }),
        }
    }

    // The original's reading, changed until it reads as the port does.
    let mut rules = BTreeSet::new();
    let mut changed: Option<(Parts, Judged)> = None;
    loop {
        let (now, seen) = match &changed {
            None => (parts, judged),
            Some((p, j)) => (slices(p), j),
        };
        let unit = match unit::read(now, order, seen.met) {
            Ok(Some(unit)) => unit,
            Ok(None) => {
                let encoding = gimli::Encoding { format: gimli::Format::Dwarf32, version: 5, address_size: 8 };
                Unit { layout: Layout { order, wide: false, older: false }, encoding, first: 0, items: vec![] }
            }
            Err(_) => return refused(if let Outcome::Error(Some(n), _) = seen.outcome { n } else { 0 }, rules),
        };
        let case = Case { parts: now, setting, met: seen.met, marks: &seen.marks };
        let changes = listed::reading(&case, &unit);
        rules.extend(listed::writing(&case, &unit));
        rules.extend(changes.iter().map(|c| c.0));
        if changes.is_empty() {
            let finished = !seen.marks.is_empty() || matches!(seen.outcome, Outcome::Answer(_));
            let read = match &seen.outcome {
                Outcome::Error(Some(n), _) if !finished => Err(*n),
                _ => Ok(plan(&unit, parts[0], &seen.marks, setting.type_units)),
            };
            return Expected { met: seen.met, references: seen.references.clone(), read, rules };
        }
        let mut next = now.map(<[u8]>::to_vec);
        for Change(part, place, byte) in changes.into_iter().flat_map(|c| c.1) {
            match next[part].get_mut(place) {
                Some(held) => *held = byte,
                None => next[part].push(byte),
            }
        }
        assert!(next != now, "the changes change nothing");
        let again = judge::judge(slices(&next), setting);
        changed = Some((next, again));
    }
}
