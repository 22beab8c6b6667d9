//! A module of `lower.rs`: makes the declarations of an accepted book, calls the lowering in the order of the parts, and
//! reads off what it gives. Name 17 is `N17`, string 17 `S17`, list of inline bits 17 `L17`.

#![warn(warnings)]

use super::*;
use crate::ast::{
    AliasDecl, AnnotationArg, ImportDecl, MessageDecl, NewtypeDecl, SemanticType, SubByteType, Tombstone, TombstoneArg,
    TypeParam, UnionDecl, UnionVariant,
};
use crate::facts::{self, Lowered};
use crate::span::Spanned;
use std::time::{Duration, Instant};

mod declarations;
mod given;
pub mod timed;

/// A record of the book.
#[derive(Clone, Copy)]
struct Record {
    kind: u8,
    sub: u8,
    a: u16,
    b: u16,
    c: u16,
    v: u64,
    span: Span,
}

const NONE: u16 = 65_535;

/// The lowering of a book that is accepted, its constants handed over together, as the original does it. Another book
/// may panic here, or fill the stack.
pub fn lower_book(book: &[u8]) -> Lowered {
    lower_book_with(book, constants)
}

/// The same with its constants handed over one at a time, in an order that names those that are reached.
pub fn lower_book_in_order(book: &[u8], order: &[u16]) -> Lowered {
    lower_book_with(book, |schema, ctx, given| constants_in_order(schema, order, ctx, given))
}

fn lower_book_with(book: &[u8], constants: impl FnOnce(&Schema, &mut LowerCtx, &mut Lowered)) -> Lowered {
    let records = records(book);
    let schema = declarations::schema(&records);
    let mut ctx = LowerCtx::new();
    if book[3] == 1 {
        ctx.wildcard_imports.insert(SmolStr::new("wildcard"));
    }
    for r in records.iter().filter(|r| r.kind == 25) {
        ctx.wildcard_origins.insert(name(r.a), None);
    }
    run(&schema, &mut ctx, constants)
}

/// How long the original evaluates the constants of an accepted book, handed over together.
pub fn time_of_constants(book: &[u8]) -> Duration {
    let mut time = Duration::ZERO;
    lower_book_with(book, |schema, ctx, _| {
        ctx.const_decls = declared_constants(schema).collect();
        let start = Instant::now();
        evaluate_constants(ctx);
        time = start.elapsed();
    });
    time
}

/// The diagnostics of the original's own entry, which takes another order than the format. Names that are ambiguous
/// between imports are left out.
pub fn lower_with_own_order(book: &[u8]) -> Vec<facts::Diagnostic> {
    let mut schema = declarations::schema(&records(book));
    if book[3] == 1 {
        let import = ImportDecl { kind: ImportKind::Wildcard, path: Vec::new(), version: None };
        schema.imports.push(Spanned::new(import, Span::empty(0)));
    }
    given::diagnostics(lower(&schema).1.into_iter())
}

/// The calls, in the order of the parts, and what each part gives.
fn run(
    schema: &Schema,
    ctx: &mut LowerCtx,
    constants: impl FnOnce(&Schema, &mut LowerCtx, &mut Lowered),
) -> Lowered {
    let mut given = Lowered::default();
    let ids = register_declarations(schema, "", ctx);
    given.lengths[0] = ctx.registry.len() as u32;
    for alias in aliases(schema).filter(|a| !a.type_params.is_empty()) {
        lower_alias(alias, "", ctx);
    }
    given.lengths[1] = ctx.registry.len() as u32;
    for alias in aliases(schema).filter(|a| a.type_params.is_empty()) {
        let before = ctx.diagnostics.len();
        lower_alias(alias, "", ctx);
        given.told[0].push(ctx.diagnostics.len() - before);
    }
    given.lengths[2] = ctx.registry.len() as u32;
    given.diagnostics[0] = given::diagnostics(ctx.diagnostics.drain(..));
    constants(schema, ctx, &mut given);
    given.diagnostics[1] = given::diagnostics(ctx.diagnostics.drain(..));
    given.lengths[3] = ctx.registry.len() as u32;
    bodies(schema, &ids, ctx, &mut given);
    given.lengths[4] = ctx.registry.len() as u32;
    given.diagnostics[2] = given::diagnostics(ctx.diagnostics.drain(..));
    given::registry(schema, &ids, ctx, &mut given);
    given
}

/// Constants are handed over as `lower_with_deps` does it, then evaluated.
fn constants(schema: &Schema, ctx: &mut LowerCtx, _given: &mut Lowered) {
    ctx.const_decls = declared_constants(schema).collect();
    evaluate_constants(ctx);
}

/// Each constant by itself, over the values of those before it. The type of one without a value, which the original
/// drops, is asked for beforehand; then the registry is put back, so that this changes nothing.
fn constants_in_order(schema: &Schema, order: &[u16], ctx: &mut LowerCtx, given: &mut Lowered) {
    let declared: HashMap<SmolStr, (ConstDecl, Span)> = declared_constants(schema).collect();
    for n in order {
        let (constant, span) = declared[&name(*n)].clone();
        let (registry, told) = (ctx.registry.clone(), ctx.diagnostics.len());
        let resolved = resolve_type_expr(&constant.ty.node, constant.ty.span, ctx);
        ctx.registry = registry;
        ctx.diagnostics.truncate(told);
        ctx.const_decls = HashMap::from([(name(*n), (constant, span))]);
        evaluate_constants(ctx);
        given.told[1].push(ctx.diagnostics.len() - told);
        if !ctx.constants.contains_key(&name(*n)) {
            given.unstored.push((*n, given::resolved(&resolved)));
        }
    }
    given.unstored.sort();
}

fn declared_constants(schema: &Schema) -> impl Iterator<Item = (SmolStr, (ConstDecl, Span))> + '_ {
    schema.declarations.iter().filter_map(|d| match &d.node {
        Decl::Const(c) => Some((c.name.node.clone(), (c.clone(), d.span))),
        _ => None,
    })
}

/// Messages, unions and newtypes, each put into its slot of the registry.
fn bodies(schema: &Schema, ids: &[TypeId], ctx: &mut LowerCtx, given: &mut Lowered) {
    let mut numbers = ids.iter();
    for decl in &schema.declarations {
        if matches!(decl.node, Decl::Message(_) | Decl::Union(_) | Decl::Newtype(_)) {
            let id = *numbers.next().expect("a number for each declaration");
            let before = ctx.diagnostics.len();
            let definition = lower_decl(&decl.node, decl.span, ctx);
            given.told[2].push(ctx.diagnostics.len() - before);
            given.bodies.push(given::body(&definition));
            *ctx.registry.get_mut(id).expect("a slot for each number") = definition;
        }
    }
}

fn aliases(schema: &Schema) -> impl Iterator<Item = &AliasDecl> {
    schema.declarations.iter().filter_map(|d| match &d.node {
        Decl::Alias(a) => Some(a),
        _ => None,
    })
}

fn name(n: u16) -> SmolStr {
    SmolStr::new(format!("N{n}"))
}

fn records(book: &[u8]) -> Vec<Record> {
    let number = |s: &[u8]| s.iter().rev().fold(0u64, |n, b| n << 8 | *b as u64);
    let mut all = Vec::new();
    for block in book.chunks(512) {
        for r in block[4..].chunks(24).take(block[2] as usize) {
            all.push(Record {
                kind: r[0],
                sub: r[1],
                a: number(&r[2..4]) as u16,
                b: number(&r[4..6]) as u16,
                c: number(&r[6..8]) as u16,
                v: number(&r[8..16]),
                span: Span::new(number(&r[16..20]) as usize, number(&r[20..24]) as usize),
            });
        }
    }
    all
}
