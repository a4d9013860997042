//! Functions over Debian's crates of which the compiler makes instances: sorting in parallel, maps, iterators, trees of
//! Rust's own syntax, JSON and regular expressions.

use indexmap::IndexMap;
use itertools::Itertools;
use rand::{rngs::StdRng, seq::SliceRandom, Rng, SeedableRng};
use rayon::prelude::*;
use std::collections::{BTreeMap, HashMap};

pub fn sorted(n: usize) -> Vec<u64> {
    let mut dice = StdRng::seed_from_u64(1);
    let mut numbers: Vec<u64> = (0..n).map(|_| dice.gen_range(0..1 << 40)).collect();
    numbers.shuffle(&mut dice);
    numbers.par_sort_unstable();
    numbers.par_iter().map(|n| n.rotate_left(7)).filter(|n| n % 3 != 0).collect()
}

pub fn counted(text: &str) -> IndexMap<String, usize> {
    let mut found = IndexMap::new();
    for word in text.split_whitespace() {
        *found.entry(word.to_lowercase()).or_insert(0) += 1;
    }
    found.sort_by(|a, x, b, y| y.cmp(x).then_with(|| a.cmp(b)));
    found
}

pub fn grouped(numbers: &[u64]) -> BTreeMap<u64, Vec<(usize, u64)>> {
    let groups = numbers.iter().copied().enumerate().map(|(i, n)| (n % 16, (i, n))).into_group_map();
    groups.into_iter().map(|(key, held)| (key, held.into_iter().sorted_by_key(|(i, _)| usize::MAX - i).dedup().collect())).collect()
}

pub fn functions(source: &str) -> Vec<String> {
    let Ok(file) = syn::parse_file(source) else { return Vec::new() };
    let named = |item: syn::Item| match item {
        syn::Item::Fn(f) => Some(f.sig.ident.to_string()),
        _ => None,
    };
    file.items.into_iter().filter_map(named).collect()
}

pub fn read(text: &str) -> Option<HashMap<String, f64>> {
    let value: serde_json::Value = serde_json::from_str(text).ok()?;
    value.as_object()?.iter().map(|(key, value)| Some((key.clone(), value.as_f64()?))).collect()
}

pub fn matched(text: &str) -> Vec<(usize, usize)> {
    let words = regex::Regex::new(r"\b[a-z]+([0-9]{2,4})\b").expect("a pattern");
    words.find_iter(text).map(|m| (m.start(), m.end())).collect()
}
