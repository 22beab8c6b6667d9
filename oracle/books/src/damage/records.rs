//! Causes 4 and 5: fields and children.

use super::scene::{stand, Piece, Scene};
use crate::layout::{Record, MOST_RECORDS, NONE};
use crate::rng::Rng;
use crate::shape::{field, group, pairs, shape, Field, Group, Shape, Value, KINDS};

/// A scene with a sound target of a random kind and sub whose shape is as wanted.
fn scene(rng: &mut Rng, wanted: fn(&Shape) -> bool) -> Scene {
    let (kind, sub) = any_pair(rng, wanted);
    Scene::with(rng, kind, sub)
}

/// A kind and sub whose shape is as wanted; all such kinds alike, however many subs they have.
fn any_pair(rng: &mut Rng, wanted: fn(&Shape) -> bool) -> (u8, u8) {
    let all: Vec<(u8, u8)> = pairs().filter(|&(kind, sub)| shape(kind, sub).is_some_and(|s| wanted(&s))).collect();
    let mut kinds: Vec<u8> = all.iter().map(|pair| pair.0).collect();
    kinds.dedup();
    let kind = *rng.pick(&kinds);
    let subs: Vec<(u8, u8)> = all.into_iter().filter(|pair| pair.0 == kind).collect();
    *rng.pick(&subs)
}

/// The shape of the target.
fn target_shape(scene: &mut Scene) -> Shape {
    let target = *scene.target();
    shape(target.kind, target.sub).expect("the target is sound")
}

/// An index of `a`, `b`, `c` where the field is as wanted.
fn index(rng: &mut Rng, scene: &mut Scene, wanted: fn(Field) -> bool) -> usize {
    let shape = target_shape(scene);
    let all: Vec<usize> = (0..3).filter(|&at| wanted(shape.fields[at])).collect();
    *rng.pick(&all)
}

pub fn unknown_kind(rng: &mut Rng) -> Scene {
    let mut scene = Scene::new(rng);
    let last = scene.records().len() - 1;
    scene.place = rng.between(0, last);
    let kind = match rng.below(3) {
        0 => rng.between(37, 255) as u8,
        _ => *rng.pick(&[0, 17, 18, 19, 26, 27, 28, 29, 37, 255]),
    };
    if rng.chance(2) {
        *scene.target() = Record { kind, ..Record::default() };
    } else {
        scene.target().kind = kind;
    }
    scene
}

/// A record place counted, but zero.
pub fn zero_record(rng: &mut Rng) -> Scene {
    let mut scene = Scene::new(rng);
    let at = scene.records().len();
    let piece = Piece { records: vec![Record::default()] };
    scene.put_at(rng, piece, 0, at);
    scene
}

pub fn sub_past_the_last(rng: &mut Rng) -> Scene {
    let several: Vec<(u8, u8)> = KINDS.into_iter().filter(|&(_, subs)| subs > 1).collect();
    wrong_sub(rng, &several)
}

pub fn sub_where_none_is(rng: &mut Rng) -> Scene {
    let one: Vec<(u8, u8)> = KINDS.into_iter().filter(|&(_, subs)| subs == 1).collect();
    wrong_sub(rng, &one)
}

/// A sub outside those of a kind.
fn wrong_sub(rng: &mut Rng, kinds: &[(u8, u8)]) -> Scene {
    let &(kind, subs) = rng.pick(kinds);
    let sub = rng.below(u64::from(subs)) as u8;
    let mut scene = Scene::with(rng, kind, sub);
    scene.target().sub = match rng.below(4) {
        0 => 255,
        1 => rng.between(usize::from(subs), 255) as u8,
        _ => subs,
    };
    scene
}

/// Sixteen bits that are not zero.
fn not_zero(rng: &mut Rng) -> u16 {
    *rng.pick(&[1, 1, 2, 255, 256, 0x8000, NONE])
}

pub fn unused_a(rng: &mut Rng) -> Scene {
    unused(rng, 0, |shape| shape.fields[0] == Field::Unused)
}

pub fn unused_b(rng: &mut Rng) -> Scene {
    unused(rng, 1, |shape| shape.fields[1] == Field::Unused)
}

pub fn unused_c(rng: &mut Rng) -> Scene {
    unused(rng, 2, |shape| shape.fields[2] == Field::Unused)
}

/// A field that is not used and not zero.
fn unused(rng: &mut Rng, index: usize, wanted: fn(&Shape) -> bool) -> Scene {
    let mut scene = scene(rng, wanted);
    *field(scene.target(), index) = not_zero(rng);
    scene
}

pub fn unused_v(rng: &mut Rng) -> Scene {
    let mut scene = scene(rng, |shape| shape.v == Value::Unused);
    scene.target().v = *rng.pick(&[1, 1, 256, 1 << 32, 1 << 63, u64::MAX]);
    scene
}

pub fn name_too_high(rng: &mut Rng) -> Scene {
    fn named(what: Field) -> bool {
        matches!(what, Field::Name | Field::NameOrNone)
    }
    let mut scene = scene(rng, |shape| shape.fields.iter().any(|&what| named(what)));
    let at = index(rng, &mut scene, named);
    *field(scene.target(), at) = match rng.below(3) {
        0 => rng.between(4_096, 65_534) as u16,
        _ => *rng.pick(&[4_096, 4_097, 65_534, 0x8000]),
    };
    scene
}

pub fn none_for_a_name(rng: &mut Rng) -> Scene {
    let mut scene = scene(rng, |shape| shape.fields.contains(&Field::Name));
    let at = index(rng, &mut scene, |what| what == Field::Name);
    *field(scene.target(), at) = NONE;
    scene
}

pub fn none_for_a_string(rng: &mut Rng) -> Scene {
    let mut scene = Scene::with(rng, 16, 2);
    scene.target().a = NONE;
    scene
}

pub fn too_many_bits(rng: &mut Rng) -> Scene {
    let sub = rng.below(2) as u8;
    let mut scene = Scene::with(rng, 2, sub);
    scene.target().a = *rng.pick(&[256, 256, 257, 512, 0x8000, NONE]);
    scene
}

pub fn bool_above_one(rng: &mut Rng) -> Scene {
    let mut scene = scene(rng, |shape| shape.v == Value::Bool);
    scene.target().v = *rng.pick(&[2, 2, 3, 256, 1 << 32, u64::MAX]);
    scene
}

pub fn ordinal_too_high(rng: &mut Rng) -> Scene {
    let mut scene = scene(rng, |shape| shape.v == Value::Ordinal);
    scene.target().v = *rng.pick(&[1 << 32, 1 << 32, (1 << 32) + 1, 1 << 63, u64::MAX]);
    scene
}

pub fn flag_above_one(rng: &mut Rng) -> Scene {
    let mut scene = scene(rng, |shape| shape.fields.contains(&Field::Flag));
    scene.target().c = *rng.pick(&[2, 2, 3, 256, NONE]);
    scene
}

fn has_child(shape: &Shape) -> bool {
    shape.fields.iter().any(|&what| is_child(what))
}

fn is_child(what: Field) -> bool {
    matches!(what, Field::Child(_) | Field::ChildOrNone(_))
}

/// A scene whose target has children, and the index of one of them.
fn parent(rng: &mut Rng) -> (Scene, usize) {
    let mut scene = scene(rng, has_child);
    let at = index(rng, &mut scene, is_child);
    (scene, at)
}

pub fn child_itself(rng: &mut Rng) -> Scene {
    let (mut scene, at) = parent(rng);
    let place = scene.place;
    *field(scene.target(), at) = place as u16;
    scene
}

/// A child that comes later, of the right group.
pub fn child_later(rng: &mut Rng) -> Scene {
    let (mut scene, at) = parent(rng);
    let place = scene.place;
    if scene.records().len() == place + 1 || rng.chance(2) {
        let what = target_shape(&mut scene).fields[at];
        let (Field::Child(group) | Field::ChildOrNone(group)) = what else {
            return scene;
        };
        let mut piece = Piece::default();
        let target = piece.small(rng, group);
        if place + 1 + piece.records.len() <= MOST_RECORDS {
            scene.put_at(rng, piece, target, place + 1);
            let child = scene.place;
            scene.place = place;
            *field(scene.target(), at) = child as u16;
            return scene;
        }
    }
    let last = (scene.records().len() - 1).max(place + 1);
    *field(scene.target(), at) = rng.between(place + 1, last) as u16;
    scene
}

pub fn child_past_the_end(rng: &mut Rng) -> Scene {
    let (mut scene, at) = parent(rng);
    let count = scene.records().len();
    *field(scene.target(), at) = match rng.below(4) {
        0 => rng.between(count, 65_534) as u16,
        1 => *rng.pick(&[1_344, 1_345, 4_096, 65_534]),
        _ => count as u16,
    };
    scene
}

pub fn child_none(rng: &mut Rng) -> Scene {
    fn needed(what: Field) -> bool {
        matches!(what, Field::Child(_))
    }
    let mut scene = scene(rng, |shape| shape.fields.iter().any(|&what| needed(what)));
    let at = index(rng, &mut scene, needed);
    *field(scene.target(), at) = NONE;
    scene
}

/// A record of another group, or a declaration or item, as child.
pub fn child_of_a_wrong_group(rng: &mut Rng) -> Scene {
    let (kind, sub) = any_pair(rng, has_child);
    let fields = shape(kind, sub).expect("a listed kind").fields;
    let children: Vec<usize> = (0..3).filter(|&at| is_child(fields[at])).collect();
    let at = *rng.pick(&children);
    let (Field::Child(right) | Field::ChildOrNone(right)) = fields[at] else { unreachable!() };
    let mut scene = Scene::new(rng);
    let mut piece = Piece::default();
    let wrong = wrong_child(rng, &mut piece, right);
    let before = stand(rng, kind, sub);
    piece.push_all(rng, &before);
    let target = piece.push(rng, kind, sub);
    let away = target - wrong;
    scene.put(rng, piece, target, 0);
    let child = scene.place - away;
    *field(scene.target(), at) = child as u16;
    scene
}

/// Adds a record that is not of that group. Gives its number.
fn wrong_child(rng: &mut Rng, piece: &mut Piece, right: Group) -> usize {
    let groups = [Group::Type, Group::Constant, Group::Constraint, Group::Operand];
    let others: Vec<Group> = groups.into_iter().filter(|&other| other != right).collect();
    if !rng.chance(3) {
        let &other = rng.pick(&others);
        return piece.small(rng, other);
    }
    let others: Vec<(u8, u8)> = pairs().filter(|&(kind, _)| group(kind).is_none()).collect();
    let &(kind, sub) = rng.pick(&others);
    let before = stand(rng, kind, sub);
    piece.push_all(rng, &before);
    piece.push(rng, kind, sub)
}

/// A child that an earlier record has.
pub fn child_of_another(rng: &mut Rng) -> Scene {
    let (kind, sub) = any_pair(rng, has_child);
    let fields = shape(kind, sub).expect("a listed kind").fields;
    let children: Vec<usize> = (0..3).filter(|&at| is_child(fields[at])).collect();
    let at = *rng.pick(&children);
    let (Field::Child(group) | Field::ChildOrNone(group)) = fields[at] else { unreachable!() };
    let mut scene = Scene::new(rng);
    let mut piece = Piece::default();
    let child = used_child(rng, &mut piece, group);
    let before = stand(rng, kind, sub);
    piece.push_all(rng, &before);
    let target = piece.push(rng, kind, sub);
    scene.put(rng, piece, target, 0);
    let child = scene.place - target + child;
    *field(scene.target(), at) = child as u16;
    scene
}

/// Adds a tree of that group and a record that has it as child. Gives the number of the child.
fn used_child(rng: &mut Rng, piece: &mut Piece, group: Group) -> usize {
    let all: &[(u8, u8)] = match group {
        Group::Type => &[(6, 0), (7, 0), (8, 0), (22, 0), (23, 0), (24, 0)],
        Group::Constant => &[(12, 0), (24, 0)],
        Group::Constraint => &[(13, 2), (13, 1)],
        Group::Operand => &[(14, 0), (15, 0)],
    };
    let &(kind, sub) = rng.pick(all);
    let parent = piece.push(rng, kind, sub);
    let fields = shape(kind, sub).expect("a listed kind").fields;
    let at = (0..3).find(|&at| fields[at] == Field::Child(group)).expect("a child of that group");
    usize::from(*field(&mut piece.records[parent], at))
}

/// The same child twice in one record.
pub fn child_twice(rng: &mut Rng) -> Scene {
    let mut scene = scene(rng, |shape| is_child(shape.fields[0]) && is_child(shape.fields[1]));
    let target = scene.target();
    if rng.chance(2) {
        target.a = target.b;
    } else {
        target.b = target.a;
    }
    scene
}

/// Cause 4 in a record whose child is wrong too.
pub fn field_and_child(rng: &mut Rng) -> Scene {
    let (mut scene, at) = parent(rng);
    let place = scene.place;
    let target = scene.target();
    *field(target, at) = place as u16;
    break_field(rng, target);
    scene
}

/// Breaks a field that has nothing to do with children: the sub, a name, or a field not used.
pub fn break_field(rng: &mut Rng, target: &mut Record) {
    let Some(shape) = shape(target.kind, target.sub) else {
        return;
    };
    let fields = shape.fields;
    let free: Vec<usize> = (0..3).filter(|&at| matches!(fields[at], Field::Unused | Field::Name)).collect();
    match rng.below(3) {
        0 if !free.is_empty() => *field(target, *rng.pick(&free)) = NONE,
        1 if shape.v == Value::Unused => target.v = 1,
        1 if shape.v == Value::Ordinal => target.v = 1 << 32,
        _ => target.sub = 200,
    }
}
