//! Causes 6 and 7: what follows what, and names declared again.

use super::records::break_field;
use super::scene::{set, Piece, Scene};
use crate::layout::{MOST_RECORDS, NONE};
use crate::rng::Rng;
use crate::shape::{group, Group};

/// Everything that may stand before a record, as far as the rules look back.
const CONTEXTS: [&[(u8, u8)]; 34] = [
    &[],
    &[(20, 0)],
    &[(21, 0)],
    &[(22, 0)],
    &[(23, 0)],
    &[(24, 0)],
    &[(25, 0)],
    &[(23, 0), (30, 0)],
    &[(23, 0), (30, 0), (30, 0)],
    &[(20, 0), (31, 0)],
    &[(20, 0), (31, 0), (34, 0)],
    &[(20, 0), (31, 0), (34, 3), (35, 0)],
    &[(20, 0), (34, 2)],
    &[(20, 0), (34, 3), (35, 2)],
    &[(20, 0), (32, 0)],
    &[(20, 0), (32, 0), (36, 0)],
    &[(20, 0), (31, 0), (32, 0), (31, 0)],
    &[(21, 0), (33, 0)],
    &[(21, 0), (33, 0), (31, 0)],
    &[(21, 0), (33, 0), (31, 0), (34, 1)],
    &[(21, 0), (33, 0), (31, 0), (34, 3), (35, 1)],
    &[(21, 0), (33, 0), (32, 0)],
    &[(21, 0), (33, 0), (32, 0), (36, 2)],
    &[(21, 0), (32, 1)],
    &[(21, 0), (32, 1), (36, 1)],
    &[(21, 0), (33, 0), (32, 1)],
    &[(21, 0), (33, 0), (32, 1), (36, 0)],
    &[(21, 0), (33, 0), (31, 0), (32, 1)],
    &[(21, 0), (33, 0), (32, 1), (33, 0)],
    &[(21, 0), (33, 0), (32, 1), (33, 0), (32, 1)],
    &[(20, 0), (31, 0), (22, 0)],
    &[(21, 0), (33, 0), (25, 0)],
    &[(21, 0), (33, 0), (21, 0)],
    &[(20, 0), (34, 2), (24, 0)],
];

/// What may break a rule.
const ITEMS: [(u8, u8); 8] = [(30, 0), (31, 0), (32, 0), (32, 1), (33, 0), (34, 0), (35, 0), (36, 0)];

/// Why an item may not stand behind a context.
#[derive(Clone, Copy, PartialEq, Eq)]
pub enum Why {
    Parameter,
    NoBody,
    NoVariant,
    AfterOwnTombstone,
    NoUnion,
    Annotation,
    Argument,
    TombstoneArgument,
}

/// The reason against an item behind a context, none where it may stand.
fn against(context: &[(u8, u8)], item: (u8, u8)) -> Option<Why> {
    let before = context.last().map_or(0, |last| last.0);
    let start = context.iter().rposition(|&(kind, _)| set(kind).is_some());
    let body = start.map_or(0, |at| context[at].0);
    let inside = start.map_or(&[][..], |at| &context[at + 1..]);
    let behind_variant = inside.iter().rposition(|&(kind, _)| kind == 33).map(|at| &inside[at..]);
    let fits = |kinds: &[u8], why| {
        if kinds.contains(&before) {
            None
        } else {
            Some(why)
        }
    };
    match item {
        (30, _) => fits(&[23, 30], Why::Parameter),
        (31, _) | (32, 0) => match (body, behind_variant) {
            (20, _) => None,
            (21, None) => Some(Why::NoVariant),
            (21, Some(rest)) if rest.contains(&(32, 1)) => Some(Why::AfterOwnTombstone),
            (21, Some(_)) => None,
            _ => Some(Why::NoBody),
        },
        (32, _) | (33, _) => (body != 21).then_some(Why::NoUnion),
        (34, _) => fits(&[20, 31, 34, 35], Why::Annotation),
        (35, _) => fits(&[34, 35], Why::Argument),
        _ => fits(&[32, 36], Why::TombstoneArgument),
    }
}

/// A scene whose target is an item that may not stand there for that reason.
pub fn misplaced(rng: &mut Rng, why: Why) -> Scene {
    let mut all: Vec<(usize, (u8, u8))> = Vec::new();
    for (at, context) in CONTEXTS.iter().enumerate() {
        all.extend(ITEMS.iter().filter(|&&item| against(context, item) == Some(why)).map(|&item| (at, item)));
    }
    let &(context, (kind, sub)) = rng.pick(&all);
    let sub = match kind {
        34 => rng.below(5) as u8,
        35 | 36 => rng.below(3) as u8,
        _ => sub,
    };
    let context = CONTEXTS[context];
    let mut scene = Scene::new(rng);
    let mut piece = Piece::default();
    piece.push_all(rng, context);
    if rng.chance(4) {
        piece.small(rng, Group::Type);
    }
    let target = piece.push(rng, kind, sub);
    if context.is_empty() {
        let first = scene.records().iter().position(|r| group(r.kind).is_none());
        let most = first.unwrap_or(scene.records().len());
        let at = rng.between(0, most);
        scene.put_at(rng, piece, target, at);
    } else {
        scene.put(rng, piece, target, 0);
    }
    scene
}

/// A misplaced item of any sort.
fn any_misplaced(rng: &mut Rng) -> Scene {
    let all = [
        Why::Parameter,
        Why::NoBody,
        Why::NoVariant,
        Why::AfterOwnTombstone,
        Why::NoUnion,
        Why::Annotation,
        Why::Argument,
        Why::TombstoneArgument,
    ];
    let why = *rng.pick(&all);
    misplaced(rng, why)
}

/// Cause 4 in a record that breaks the follow rule too.
pub fn field_and_follow(rng: &mut Rng) -> Scene {
    let mut scene = any_misplaced(rng);
    break_field(rng, scene.target());
    scene
}

/// Cause 5 in a record that breaks the follow rule too.
pub fn child_and_follow(rng: &mut Rng) -> Scene {
    let why = *rng.pick(&[Why::NoBody, Why::NoVariant, Why::AfterOwnTombstone, Why::NoUnion]);
    loop {
        let mut scene = misplaced(rng, why);
        let place = scene.place as u16;
        let target = scene.target();
        match target.kind {
            31 => target.b = *rng.pick(&[place, place + 1, NONE]),
            32 => target.c = *rng.pick(&[place, place + 1, 60_000]),
            _ => continue,
        }
        return scene;
    }
}

/// A scene whose target is a declaration of a name that its set has already.
fn again(rng: &mut Rng, kinds: &[u8]) -> Scene {
    let mut scene = Scene::new(rng);
    let records = scene.records();
    let own: Vec<usize> = (0..records.len()).filter(|&at| kinds.contains(&records[at].kind)).collect();
    let first = if !own.is_empty() && rng.chance(2) {
        *rng.pick(&own)
    } else {
        let kind = *rng.pick(kinds);
        let mut piece = Piece::default();
        let target = piece.push(rng, kind, 0);
        scene.put(rng, piece, target, 0);
        scene.place
    };
    // Room for a second one behind the first.
    scene.records().truncate((first + 1).max(1_300));
    let kind = *rng.pick(kinds);
    let mut piece = Piece::default();
    let target = piece.push(rng, kind, 0);
    if first + 1 + piece.records.len() > MOST_RECORDS {
        return again(rng, kinds);
    }
    scene.put(rng, piece, target, first + 1);
    let name = scene.records()[first].a;
    scene.target().a = name;
    scene
}

pub fn type_again(rng: &mut Rng) -> Scene {
    again(rng, &[20, 21, 22, 23])
}

pub fn constant_again(rng: &mut Rng) -> Scene {
    again(rng, &[24])
}

pub fn ambiguous_again(rng: &mut Rng) -> Scene {
    again(rng, &[25])
}

/// Cause 4 in a declaration whose name was declared before.
pub fn field_and_name(rng: &mut Rng) -> Scene {
    let sets: [&[u8]; 3] = [&[20, 21, 22, 23], &[24], &[25]];
    let kinds = *rng.pick(&sets);
    let mut scene = again(rng, kinds);
    if rng.chance(2) {
        scene.target().sub = 1;
    } else {
        scene.target().v = 1;
    }
    scene
}

/// Cause 5 in a declaration whose name was declared before.
pub fn child_and_name(rng: &mut Rng) -> Scene {
    let sets: [&[u8]; 2] = [&[22, 23], &[24]];
    let kinds = *rng.pick(&sets);
    let mut scene = again(rng, kinds);
    let place = scene.place as u16;
    scene.target().b = *rng.pick(&[place, place + 1, NONE]);
    scene
}
