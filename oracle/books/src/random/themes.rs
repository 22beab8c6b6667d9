//! Themes: what a book is about.

use super::draft::{Id, Placing, Spans};
use super::maker::{plan, Knobs, Maker, Plan};
use super::types::Place;
use crate::layout::{Book, Record, MOST_RECORDS, PLACES};
use crate::rng::Rng;

/// The themes from here on, and the rings of generics, are the ones that come to causes 9 and 10 most.
pub const FIRST_EDGE: usize = 23;

/// A theme sets the knobs, and may make declarations of its own before the planned ones.
pub struct Theme {
    #[cfg_attr(not(test), allow(dead_code))]
    pub name: &'static str,
    knobs: fn(&mut Knobs),
    own: fn(&mut Maker),
}

/// All themes; the first one mixes all.
pub const THEMES: [Theme; 27] = [
    Theme { name: "everything", knobs: |_| {}, own: nothing },
    Theme { name: "leaves", knobs: leaves, own: nothing },
    Theme { name: "nested types", knobs: nested, own: nothing },
    Theme { name: "generics", knobs: generics, own: nothing },
    Theme { name: "rings of generics", knobs: rings, own: nothing },
    Theme { name: "alias chains", knobs: chains, own: nothing },
    Theme { name: "ambiguous names", knobs: ambiguous, own: nothing },
    Theme { name: "unknown names", knobs: unknown, own: nothing },
    Theme { name: "qualified names", knobs: qualified, own: nothing },
    Theme { name: "heads", knobs: heads, own: nothing },
    Theme { name: "constant chains", knobs: constant_chains, own: nothing },
    Theme { name: "constant rings", knobs: constant_rings, own: rings_of_constants },
    Theme { name: "constant edges", knobs: constant_edges, own: nothing },
    Theme { name: "constant types", knobs: constant_types, own: nothing },
    Theme { name: "deep constants", knobs: deep_constants, own: nothing },
    Theme { name: "encodings", knobs: encodings, own: nothing },
    Theme { name: "unions", knobs: unions, own: nothing },
    Theme { name: "constraints", knobs: constraints, own: nothing },
    Theme { name: "tombstones", knobs: tombstones, own: nothing },
    Theme { name: "limits", knobs: limits, own: nothing },
    Theme { name: "empty declarations", knobs: empty, own: nothing },
    Theme { name: "loose trees", knobs: loose, own: nothing },
    Theme { name: "long lists", knobs: long_lists, own: nothing },
    Theme { name: "steps", knobs: few, own: steps },
    Theme { name: "copies", knobs: few, own: copies },
    Theme { name: "full results", knobs: few, own: full_results },
    Theme { name: "many diagnostics", knobs: few, own: many_diagnostics },
];

fn nothing(_: &mut Maker) {}

fn leaves(k: &mut Knobs) {
    k.roles = [2, 1, 6, 2, 0, 0, 1];
    k.size = 1;
    k.leaves = [4, 2, 2, 1, 1, 1];
    k.per = 3;
    k.constrained = 20;
}

fn nested(k: &mut Knobs) {
    k.roles = [2, 1, 5, 1, 1, 1, 0];
    k.size = 20;
    k.deep = 4;
    k.inner = [1, 4, 4];
    k.per = 25;
    k.leaves = [6, 2, 2, 2, 1, 1];
    k.least = 80;
}

fn generics(k: &mut Knobs) {
    k.roles = [1, 0, 5, 1, 5, 1, 1];
    k.inner = [5, 2, 1];
    k.leaves = [4, 1, 1, 3, 1, 0];
    k.heads = [12, 1, 1, 1, 1, 1];
    k.ring = 16;
    k.per = 5;
}

fn rings(k: &mut Knobs) {
    generics(k);
    k.ring = 2;
    k.heads = [30, 1, 1, 1, 1, 1];
}

fn chains(k: &mut Knobs) {
    k.roles = [1, 0, 3, 8, 1, 1, 1];
    k.chain = 2;
    k.named = [3, 8, 1, 1, 1, 1, 0];
    k.leaves = [2, 0, 0, 8, 1, 0];
    k.per = 3;
}

fn ambiguous(k: &mut Knobs) {
    k.roles = [2, 1, 4, 3, 2, 1, 8];
    k.named = [3, 2, 1, 8, 2, 2, 1];
    k.leaves = [2, 0, 0, 8, 2, 0];
    k.per = 3;
}

fn unknown(k: &mut Knobs) {
    k.roles = [2, 1, 5, 3, 1, 1, 1];
    k.unknown = 6;
    k.named = [2, 2, 1, 1, 8, 2, 2];
    k.leaves = [2, 0, 0, 8, 2, 0];
    k.heads = [2, 1, 1, 4, 1, 1];
    k.per = 4;
}

fn qualified(k: &mut Knobs) {
    k.roles = [2, 1, 5, 3, 1, 1, 1];
    k.leaves = [1, 0, 0, 3, 8, 0];
    k.per = 4;
}

fn heads(k: &mut Knobs) {
    k.roles = [2, 1, 5, 3, 4, 1, 1];
    k.inner = [6, 1, 1];
    k.heads = [3, 3, 3, 3, 2, 3];
    k.leaves = [2, 0, 0, 5, 2, 0];
    k.unknown = 5;
    k.per = 5;
    k.named = [3, 2, 6, 1, 1, 1, 0];
}

fn constant_chains(k: &mut Knobs) {
    k.roles = [0, 0, 1, 0, 0, 12, 0];
    k.constants = [2, 8, 6, 0, 0, 0, 0, 0, 1];
    k.typed = 12;
    k.per = 5;
}

fn constant_rings(k: &mut Knobs) {
    k.roles = [0, 0, 1, 0, 0, 12, 0];
    k.constants = [2, 3, 3, 6, 3, 2, 0, 0, 2];
    k.typed = 12;
    k.per = 5;
}

fn constant_edges(k: &mut Knobs) {
    k.roles = [0, 0, 0, 0, 0, 12, 0];
    k.constants = [4, 2, 1, 0, 0, 1, 10, 0, 1];
    k.typed = 20;
    k.per = 5;
}

fn constant_types(k: &mut Knobs) {
    k.roles = [1, 0, 1, 3, 2, 10, 2];
    k.typed = 1;
    k.per = 5;
}

fn deep_constants(k: &mut Knobs) {
    k.roles = [0, 0, 1, 0, 0, 8, 0];
    k.constants = [2, 2, 2, 0, 1, 1, 1, 8, 1];
    k.per = 40;
    k.least = 180;
}

fn encodings(k: &mut Knobs) {
    k.roles = [8, 1, 1, 3, 1, 0, 0];
    k.size = 2;
    k.leaves = [12, 4, 1, 4, 0, 1];
    k.named = [2, 8, 1, 1, 1, 1, 0];
    k.items = 12;
    k.body = [12, 1, 2, 1];
    k.delta = 2;
    k.annotated = 2;
    k.annotations = [4, 4, 3, 1, 1];
    k.several = [4, 4, 4, 3];
    k.constrained = 30;
    k.per = 20;
}

fn unions(k: &mut Knobs) {
    k.roles = [1, 10, 1, 1, 0, 0, 1];
    k.items = 14;
    k.body = [4, 2, 4, 2];
    k.per = 20;
}

fn constraints(k: &mut Knobs) {
    k.roles = [8, 3, 1, 0, 0, 1, 0];
    k.size = 1;
    k.constrained = 1;
    k.annotated = 8;
    k.deep = 12;
    k.per = 24;
    k.leaves = [8, 1, 1, 1, 0, 0];
    k.least = 90;
}

fn tombstones(k: &mut Knobs) {
    k.roles = [6, 6, 1, 1, 0, 0, 0];
    k.body = [1, 8, 3, 4];
    k.bare = 6;
    k.items = 10;
    k.per = 20;
}

fn limits(k: &mut Knobs) {
    k.roles = [8, 3, 1, 0, 0, 0, 0];
    k.size = 1;
    k.annotated = 1;
    k.annotations = [1, 1, 1, 8, 1];
    k.body = [8, 1, 2, 1];
    k.constrained = 20;
    k.per = 24;
}

fn empty(k: &mut Knobs) {
    k.items = 0;
    k.per = 3;
}

fn loose(k: &mut Knobs) {
    k.loose = 1;
    k.per = 14;
}

fn long_lists(k: &mut Knobs) {
    k.size = 2;
    k.items = 40;
    k.per = 60;
    k.deep = 200;
}

fn few(k: &mut Knobs) {
    k.per = 30;
    k.loose = 20;
}

/// Resolving that takes just as many steps as are allowed, or one more or less.
fn steps(m: &mut Maker) {
    let count = 1 + m.rng.below(2);
    for _ in 0..count {
        let steps = *m.rng.pick(&[6, 20, 62, 63, 63, 64, 64, 64, 64, 64, 65, 65]);
        let id = m.stepped(steps);
        user(m, id);
    }
}

/// Some declaration whose type is that one.
fn user(m: &mut Maker, id: Id) {
    let name = m.fresh_name();
    match m.rng.below(5) {
        0 => m.alias(name, id),
        1 => {
            let top = m.draft.node(Record { kind: 22, a: name, ..Record::default() }, [None, Some(id), None]);
            m.draft.open(top);
        }
        2 => {
            let value = m.leaf(10, 0, 0, 0, 5);
            let name = constant_name(m);
            let record = Record { kind: 24, a: name, ..Record::default() };
            let top = m.draft.node(record, [None, Some(id), Some(value)]);
            m.draft.open(top);
        }
        3 => {
            let top = m.leaf(20, 0, name, 0, 0);
            m.draft.open(top);
            let record = Record { kind: 31, a: name, c: 65_535, ..Record::default() };
            let item = m.draft.node(record, [None, Some(id), None]);
            m.draft.item(item);
        }
        _ => {
            let top = m.leaf(21, 0, name, 0, 0);
            m.draft.open(top);
            let item = m.draft.node(Record { kind: 32, sub: 1, ..Record::default() }, [None, None, Some(id)]);
            m.draft.item(item);
        }
    }
}

/// One or two whole rings of constants. The planned ones may lead into them.
fn rings_of_constants(m: &mut Maker) {
    for _ in 0..m.rng.below(3) {
        let length = m.rng.between(1, 6);
        let names: Vec<u16> = (0..length).map(|_| constant_name(m)).collect();
        m.ring_of(&names);
    }
}

/// A name that no constant of the plan has.
fn constant_name(m: &mut Maker) -> u16 {
    let mut name = 3_800;
    while m.plan.constants.contains(&name) {
        name += 1;
    }
    m.plan.constants.push(name);
    name
}

/// Plain aliases that double the copy of the one before or make it deeper, and newtypes over them.
fn copies(m: &mut Maker) {
    let length = *m.rng.pick(&[2, 4, 6, 7, 8, 9, 10, 10, 11, 11]);
    let mut before = m.fresh_name();
    let place = Place { plains: Some(Vec::new()), ..Place::default() };
    let target = if m.rng.chance(2) { m.primitive() } else { m.type_of(3, &place) };
    m.alias(before, target);
    for _ in 0..length {
        let name = m.fresh_name();
        let mut target = m.named(before);
        if m.rng.chance(6) {
            for _ in 0..m.rng.between(1, 63) {
                target = m.one_child(target);
            }
        } else {
            let b = if m.rng.chance(6) { m.plain_leaf() } else { m.named(before) };
            target = m.two_children(target, b);
        }
        m.alias(name, target);
        before = name;
    }
    for _ in 0..m.rng.below(4) {
        let name = m.fresh_name();
        let child = m.named(before);
        let top = m.draft.node(Record { kind: 22, a: name, ..Record::default() }, [None, Some(child), None]);
        m.draft.open(top);
    }
}

/// Results that come near to the limit of 2,048: copies of an alias, and messages for the rest.
fn full_results(m: &mut Maker) {
    m.knobs.alone = !m.rng.chance(4);
    let goal = *m.rng.pick(&[1_900, 2_040, 2_046, 2_047, 2_047, 2_048, 2_048, 2_048, 2_048, 2_049]);
    let size = m.rng.between(20, 64);
    let mut target = m.primitive();
    for _ in 1..size {
        target = m.one_child(target);
    }
    let name = m.fresh_name();
    m.alias(name, target);
    let copies = goal / (size + 1) - 1 - m.rng.between(0, 1);
    for _ in 0..copies {
        let child = m.named(name);
        let a = m.fresh_name();
        let top = m.draft.node(Record { kind: 22, a, ..Record::default() }, [None, Some(child), None]);
        m.draft.open(top);
    }
    for _ in 0..goal - (size + 1) * (copies + 1) {
        let a = m.fresh_name();
        let top = m.leaf(20, 0, a, 0, 0);
        m.draft.open(top);
    }
}

/// Many fields of unknown or ambiguous types.
fn many_diagnostics(m: &mut Maker) {
    m.knobs.alone = m.rng.chance(2);
    let name = m.fresh_name();
    let top = m.leaf(20, 0, name, 0, 0);
    m.draft.open(top);
    let count = *m.rng.pick(&[20, 60, 120, 200, 240, 254, 255, 256, 256, 257, 260]);
    for _ in 0..count {
        let child = match m.rng.below(3) {
            0 => m.leaf(5, 0, 3_601, 1, 0),
            1 => {
                let argument = m.plain_leaf();
                m.generic(3_602, argument)
            }
            _ => m.named(3_603),
        };
        let record = Record { kind: 31, a: 1, c: 65_535, v: 1, ..Record::default() };
        let item = m.draft.node(record, [None, Some(child), None]);
        m.draft.item(item);
    }
}

/// How many records the book gets: mostly 1 to 4 blocks, sometimes up to 20, a few times up to 64.
fn room(rng: &mut Rng) -> usize {
    let records = match rng.below(40) {
        0 => rng.between(20 * PLACES + 1, MOST_RECORDS),
        1 => MOST_RECORDS,
        2..=6 => rng.between(4 * PLACES + 1, 20 * PLACES),
        _ => rng.between(1, 4 * PLACES),
    };
    if rng.chance(5) {
        records.div_ceil(PLACES) * PLACES
    } else {
        records
    }
}

/// A readable book of that theme.
pub fn themed(rng: &mut Rng, theme: &Theme) -> Book {
    let mut knobs = Knobs::mixed();
    (theme.knobs)(&mut knobs);
    let records = room(rng).max(knobs.least);
    sized(rng, theme, records)
}

/// A readable book of that theme with about so many records.
pub fn sized(rng: &mut Rng, theme: &Theme, room: usize) -> Book {
    let mut knobs = Knobs::mixed();
    (theme.knobs)(&mut knobs);
    let wildcards = rng.below(4) < knobs.wildcards;
    let plan = plan(rng, &knobs, room);
    let planned = planned(&plan);
    let mut maker = Maker { rng, draft: Default::default(), knobs, plan, room, pairs: Vec::new() };
    (theme.own)(&mut maker);
    maker.room = maker.room.max(maker.draft.made() + 10).min(MOST_RECORDS);
    if !maker.knobs.alone {
        declarations(&mut maker, planned);
    }
    let records = finished(&mut maker);
    Book { wildcards, records }
}

/// The planned declarations: role and index.
fn planned(plan: &Plan) -> Vec<(usize, usize)> {
    let counts = [
        plan.messages.len(),
        plan.unions.len(),
        plan.newtypes.len(),
        plan.plains.len(),
        plan.generics.len(),
        plan.constants.len(),
        plan.ambiguous.len(),
    ];
    let all = counts.iter().enumerate();
    all.flat_map(|(role, &count)| (0..count).map(move |index| (role, index))).collect()
}

/// The planned declarations, until the room is used up.
fn declarations(m: &mut Maker, mut all: Vec<(usize, usize)>) {
    if m.rng.chance(2) {
        m.rng.shuffle(&mut all);
    }
    for (role, index) in all {
        if m.left() == 0 {
            return;
        }
        declaration(m, role, index);
        if m.rng.chance(m.knobs.loose) {
            loose_tree(m);
        }
    }
}

/// The declaration of that role and index.
fn declaration(m: &mut Maker, role: usize, index: usize) {
    match role {
        0 => m.message(m.plan.messages[index]),
        1 => m.union(m.plan.unions[index]),
        2 => m.newtype(m.plan.newtypes[index]),
        3 => m.plain_alias(index),
        4 => m.generic_alias(index),
        5 => m.constant(index),
        _ => {
            let id = m.leaf(25, 0, m.plan.ambiguous[index], 0, 0);
            m.draft.open(id);
        }
    }
}

/// A tree that nobody uses.
fn loose_tree(m: &mut Maker) {
    let id = match m.rng.below(5) {
        0 | 1 => m.usual_type(),
        2 => m.usual_constraint(),
        3 => m.operand(),
        _ => m.loose_expression(),
    };
    m.draft.loose.push(id);
}

/// Brings the groups into their order, keeps to the room, fills up the last block now and then.
fn finished(m: &mut Maker) -> Vec<Record> {
    m.draft.trim(m.room.min(MOST_RECORDS));
    match m.rng.below(4) {
        0 => {}
        1 => m.draft.groups.reverse(),
        _ => m.rng.shuffle(&mut m.draft.groups),
    }
    let total = m.draft.total();
    let goal = if total == 0 {
        1
    } else if m.room.is_multiple_of(PLACES) || m.rng.chance(12) {
        total.div_ceil(PLACES) * PLACES
    } else {
        total
    };
    let goal = if m.room >= MOST_RECORDS && m.rng.chance(2) { MOST_RECORDS } else { goal };
    for _ in total..goal {
        let id = if m.rng.chance(2) { m.leaf_type(&Place::default()) } else { m.operand() };
        m.draft.loose.push(id);
    }
    let placing = match m.rng.below(8) {
        0 => Placing::Front,
        1 => Placing::Spread(1),
        2 | 3 => Placing::Spread(3),
        4 => Placing::Spread(8),
        _ => Placing::Close,
    };
    let spans = match m.rng.below(12) {
        0 => Spans::Random,
        1 if m.rng.chance(3) => Spans::Zero,
        _ => Spans::Distinct,
    };
    m.draft.finish(m.rng, placing, spans).0
}
