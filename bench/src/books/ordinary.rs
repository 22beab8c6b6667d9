//! The ordinary book: stations as a parser hands them over, with messages, constants, a newtype, an alias, a union and
//! now and then a tombstone.

use super::draft::{Draft, I16, MUL, NONE, PLACES, U16, U32, U64, U8};

/// Names of fields and variants, which come again in every station.
const TENSION: u16 = 4_000;
const CLOCK: u16 = 4_001;
const SPEED: u16 = 4_002;
const DIRECTION: u16 = 4_003;
const GUST: u16 = 4_004;
const COUNTER: u16 = 4_005;
const STATE: u16 = 4_006;
const READING: u16 = 4_007;
const ROPE: u16 = 4_008;
const LABEL: u16 = 4_009;
const OPENED: u16 = 4_010;
const CLOSED: u16 = 4_011;
const BY: u16 = 4_012;
const SPARE: u16 = 4_013;

/// The names that a station declares are so many.
const NAMES: u16 = 10;

/// The pieces of a station, in its order: each takes the first of the station's names.
const PIECES: [fn(&mut Draft, u16); 8] = [constants, rope, wind, volts, reading, door, event, retired];

/// Stations up to so many records, all in use: the last places go to a message of plain fields.
pub fn stations(d: &mut Draft, records: usize) {
    let pieces = PIECES.len() as u16;
    d.fill(records, |d, n| PIECES[usize::from(n % pieces)](d, NAMES * (n / pieces)));
    rest(d, records);
}

/// So many blocks of stations.
pub fn book(blocks: usize) -> Option<Draft> {
    let mut d = Draft::default();
    stations(&mut d, PLACES * blocks);
    Some(d)
}

/// A step in newtons, and the full tension over it.
fn constants(d: &mut Draft, name: u16) {
    let step = d.int(5);
    d.constant(name, U16, step);
    let step = d.reference(name);
    let steps = d.int(65_535);
    let full = d.operation(MUL, step, steps);
    d.constant(name + 1, U32, full);
}

/// Rope tension, with a range, and a clock.
fn rope(d: &mut Draft, name: u16) {
    d.message(name + 2);
    let tension = d.primitive(U16);
    let (low, high) = (d.operand(0), d.operand(9_000));
    let range = d.range(0, low, high);
    d.field(TENSION, 0, tension, range);
    d.varint();
    d.plain_field(CLOCK, 1, U32);
}

/// Wind: a range up to a constant, and three of the encodings.
fn wind(d: &mut Draft, name: u16) {
    d.message(name + 3);
    d.plain_field(SPEED, 0, U16);
    let direction = d.primitive(U16);
    let (low, high) = (d.operand(0), d.operand_of(name + 1));
    let range = d.range(1, low, high);
    d.field(DIRECTION, 1, direction, range);
    d.plain_field(GUST, 2, I16);
    d.zigzag();
    d.plain_field(COUNTER, 3, U64);
    d.delta();
}

fn volts(d: &mut Draft, name: u16) {
    let t = d.primitive(U16);
    d.newtype(name + 4, t);
}

fn reading(d: &mut Draft, name: u16) {
    let t = d.primitive(U32);
    d.alias(name + 5, t);
}

/// A door: a comparison, the alias, the message above, and a label with a limit.
fn door(d: &mut Draft, name: u16) {
    d.message(name + 6);
    let state = d.primitive(U8);
    let last = d.operand(3);
    let constraint = d.at_most(last);
    d.field(STATE, 0, state, constraint);
    let reading = d.named(name + 5);
    d.field(READING, 1, reading, NONE);
    let rope = d.named(name + 2);
    d.field(ROPE, 2, rope, NONE);
    let label = d.text();
    d.field(LABEL, 3, label, NONE);
    d.limit(32);
}

/// What happened to it: opened or closed.
fn event(d: &mut Draft, name: u16) {
    d.union(name + 7);
    d.variant(OPENED, 0);
    d.plain_field(BY, 0, U8);
    d.variant(CLOSED, 1);
    let volts = d.named(name + 4);
    d.field(BY, 0, volts, NONE);
}

/// A message that lost a field.
fn retired(d: &mut Draft, name: u16) {
    d.message(name + 8);
    d.tombstone(0, name);
    d.plain_field(SPARE, 1, U16);
}

/// Fills the places that are left: a message of plain fields; a newtype where two are left.
fn rest(d: &mut Draft, records: usize) {
    let left = records - d.len();
    match left {
        0 => {}
        2 => {
            let t = d.primitive(U8);
            d.newtype(3_999, t);
        }
        _ => {
            d.message(3_999);
            (0..(left as u64 - 1) / 2).for_each(|n| {
                d.plain_field(SPARE, n, U16);
            });
            if left.is_multiple_of(2) {
                d.varint();
            }
        }
    }
}
