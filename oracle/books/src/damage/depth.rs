//! Cause 8: trees of depth 65.

use super::records::break_field;
use super::scene::{Piece, Scene};
use crate::layout::NONE;
use crate::rng::Rng;
use crate::shape::{field, shape, Field, Group};

/// Adds a record over `top`: with `top` as one child, and small trees as others. Gives its number.
fn over(rng: &mut Rng, piece: &mut Piece, top: usize, group: Group) -> usize {
    let (kind, subs) = *match group {
        Group::Type => rng.pick(&[(6, 1), (7, 10), (7, 10), (8, 2)]),
        Group::Constant => &(12, 10),
        _ => rng.pick(&[(13, 3), (13, 3), (13, 2)]),
    };
    let sub = rng.below(subs) as u8;
    let number = piece.push(rng, kind, sub);
    let fields = shape(kind, sub).expect("a listed kind").fields;
    let all: Vec<usize> = (0..3).filter(|&at| fields[at] == Field::Child(group)).collect();
    let at = *rng.pick(&all);
    *field(&mut piece.records[number], at) = top as u16;
    number
}

/// A scene whose target is the first record of depth 65.
fn deep(rng: &mut Rng, group: Group) -> Scene {
    let mut piece = Piece::default();
    let mut top = piece.small(rng, group);
    let depth = if group == Group::Constraint { 2 } else { 1 };
    for _ in depth..65 {
        top = over(rng, &mut piece, top, group);
    }
    let target = top;
    for _ in 0..rng.below(3) {
        top = over(rng, &mut piece, top, group);
    }
    let mut scene = Scene::new(rng);
    scene.records().truncate(600);
    scene.put(rng, piece, target, 0);
    scene
}

pub fn deep_type(rng: &mut Rng) -> Scene {
    deep(rng, Group::Type)
}

pub fn deep_expression(rng: &mut Rng) -> Scene {
    deep(rng, Group::Constant)
}

pub fn deep_constraint(rng: &mut Rng) -> Scene {
    deep(rng, Group::Constraint)
}

/// A tree of depth 65 of any group.
fn any_deep(rng: &mut Rng) -> Scene {
    let group = *rng.pick(&[Group::Type, Group::Constant, Group::Constraint]);
    deep(rng, group)
}

/// Cause 4 in the record of depth 65.
pub fn field_and_depth(rng: &mut Rng) -> Scene {
    let mut scene = any_deep(rng);
    break_field(rng, scene.target());
    scene
}

/// Cause 5 in the record of depth 65: its other child is wrong.
pub fn child_and_depth(rng: &mut Rng) -> Scene {
    loop {
        let mut scene = any_deep(rng);
        let place = scene.place;
        let target = scene.target();
        let two = target.kind == 8 || target.kind == 12 || (target.kind == 13 && target.sub < 2);
        if !two {
            continue;
        }
        // The deep child stands right before the small trees of the target; it is the smaller number.
        let deep = target.a.min(target.b);
        let wrong = *rng.pick(&[place as u16, place as u16 + 1, NONE, deep]);
        if target.a == deep {
            target.b = wrong;
        } else {
            target.a = wrong;
        }
        return scene;
    }
}
