//! Books that take long for their size. The shortest way to many steps is a generic alias with several places for its
//! argument, a *fan*, used on itself: each use more multiplies what is resolved, and costs one record.

use super::aliases::{steps, unused};
use super::draft::{Draft, NONE, PLACES, U8};

/// Names of the parameter, the message and the fan.
const T: u16 = 4_000;
const USER: u16 = 4_001;
const FAN: u16 = 4_002;

/// The most results, and the deepest that resolving goes.
const RESULTS: usize = 2_048;
const DEEPEST: usize = 64;

/// A fan with so many places, in maps.
fn fan(d: &mut Draft, places: usize) {
    let target = d.maps(0, places as u16, &|d, _| d.named(T));
    d.generic_alias(FAN, target, T);
}

/// A use of the fan on itself, so many times, over a type.
pub fn fanned(d: &mut Draft, times: usize, inner: u16) -> u16 {
    (0..times).fold(inner, |argument, _| d.generic(FAN, argument))
}

/// The smallest fan, of two places.
pub fn smallest_fan(d: &mut Draft) {
    fan(d, 2);
}

/// A fan, and how many times a field uses it on itself at most.
#[derive(Clone, Copy)]
struct Fan {
    places: usize,
    times: usize,
}

impl Fan {
    /// All that come to the limit of results at most.
    fn all(records: usize) -> impl Iterator<Item = Fan> {
        let fits = |fan: &Fan| 2 * fan.places.pow(fan.times as u32) < RESULTS;
        (2..records / 2).flat_map(move |places| (1..10).map(move |times| Fan { places, times }).take_while(fits))
    }

    fn records(self) -> usize {
        2 * self.places + 1
    }

    /// How deep the innermost argument of a field is resolved.
    fn depth(self) -> usize {
        let height = self.places.next_power_of_two().ilog2() as usize;
        1 + self.times * (height + 2)
    }

    /// How many times each field uses the fan on itself, where the innermost type has `inner` records: as many as the
    /// places for records and for results allow, the greatest first.
    fn fields(self, inner: usize, mut records: usize, mut results: usize) -> Vec<usize> {
        let mut fields = Vec::new();
        for times in (1..=self.times).rev() {
            let (takes, writes) = (inner + times + 1, 2 * self.places.pow(times as u32) + 1);
            let n = (records / takes).min(results / writes);
            (records, results) = (records - n * takes, results - n * writes);
            fields.extend(std::iter::repeat_n(times, n));
        }
        fields
    }

    /// How many times the innermost types of these fields are resolved.
    fn leaves(self, fields: &[usize]) -> usize {
        fields.iter().map(|times| self.places.pow(*times as u32)).sum()
    }
}

/// Fields over a type, which each use the fan so many times on itself.
fn add_fields(d: &mut Draft, fields: &[usize], inner: impl Fn(&mut Draft) -> u16) {
    for (name, times) in (1..).zip(fields) {
        let inner = inner(d);
        let t = fanned(d, *times, inner);
        d.field(name, u64::from(name), t, NONE);
    }
}

/// The fan, the length of the chain, and the fields by which most steps are taken in so many records.
fn most_steps(records: usize) -> (Fan, usize, Vec<usize>) {
    let all = Fan::all(records).flat_map(|fan| (0..=DEEPEST.saturating_sub(fan.depth())).map(move |n| (fan, n)));
    let planned = all.filter_map(|(fan, n)| {
        let taken = fan.records() + (4 * n).saturating_sub(1) + 1;
        let fields = fan.fields(1 + n.min(1), records.checked_sub(taken)?, RESULTS - 1);
        Some((fan, n, fields))
    });
    planned.max_by_key(|(fan, n, fields)| (n + 2) * fan.leaves(fields)).expect("a plan for every size")
}

/// Each leaf of a field's type takes a chain of generic aliases, as long as records and depth allow, and there are as
/// many leaves as results allow.
pub fn generics(blocks: usize) -> Option<Draft> {
    let (mut d, records) = (Draft::default(), PLACES * blocks);
    let (fan_of, n, fields) = most_steps(records);
    steps(&mut d, n as u16);
    fan(&mut d, fan_of.places);
    d.message(USER);
    add_fields(&mut d, &fields, |d| if n == 0 { d.primitive(U8) } else { d.generic_u8(0) });
    unused(&mut d, records);
    Some(d)
}

/// The fan, the number of pairs, and the fields by which most entries of the pairs are looked at.
fn most_lookups(records: usize) -> (Fan, usize, Vec<usize>) {
    let all = Fan::all(records.min(140)).flat_map(|fan| (1..records / 2).map(move |pairs| (fan, pairs)));
    let planned = all.filter(|(fan, _)| fan.depth() <= DEEPEST).filter_map(|(fan, pairs)| {
        let taken = fan.records() + 1 + 2 * pairs;
        let fields = fan.fields(1, records.checked_sub(taken)?, RESULTS.checked_sub(2 + 2 * pairs)?);
        Some((fan, pairs, fields))
    });
    let looks = |fan: &Fan, pairs: usize, fields: &[usize]| pairs * pairs / 2 + pairs * fan.leaves(fields);
    planned.max_by_key(|(fan, pairs, fields)| looks(fan, *pairs, fields)).expect("a plan for every size")
}

/// A field makes many pairs, and others meet the last of them again and again.
pub fn pairs(blocks: usize) -> Option<Draft> {
    let (mut d, records) = (Draft::wild(), PLACES * blocks);
    let (fan_of, pairs, fields) = most_lookups(records);
    fan(&mut d, fan_of.places);
    d.message(USER);
    let all = d.maps(0, pairs as u16, &|d, name| d.qualified(USER, name));
    d.field(0, 0, all, NONE);
    add_fields(&mut d, &fields, |d| d.qualified(USER, pairs as u16 - 1));
    unused(&mut d, records);
    Some(d)
}

/// Plain aliases, each a map of the one before to itself, as many as fit: each is copied twice. 10 come to the limit of
/// results.
pub fn copies(blocks: usize) -> Option<Draft> {
    let (mut d, records) = (Draft::default(), PLACES * blocks);
    let t = d.primitive(U8);
    d.alias(0, t);
    for name in 1..((records + 2) / 4).min(10) as u16 {
        let (key, value) = (d.named(name - 1), d.named(name - 1));
        let t = d.map(key, value);
        d.alias(name, t);
    }
    unused(&mut d, records);
    Some(d)
}

/// Fields of an ambiguous name, with a diagnostic each, up to their limit; then fields of u8.
pub fn ambiguous(blocks: usize) -> Option<Draft> {
    let (mut d, records) = (Draft::default(), PLACES * blocks);
    d.ambiguous(0);
    d.message(USER);
    d.fill(records, |d, name| {
        let t = if name < 256 { d.named(0) } else { d.primitive(U8) };
        d.field(name, u64::from(name), t, NONE);
    });
    unused(&mut d, records);
    Some(d)
}
