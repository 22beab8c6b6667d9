//! The lowering of a book in the parts that a clock needs apart: declarations made beforehand, a fresh context, and the
//! calls alone.

use super::*;

/// The declarations of an accepted book, made beforehand.
pub struct Prepared {
    schema: Schema,
    wildcards: bool,
    ambiguous: Vec<SmolStr>,
}

/// A context, and the numbers that the calls gave to declarations.
pub struct Context {
    ctx: LowerCtx,
    ids: Vec<TypeId>,
}

impl Prepared {
    pub fn new(book: &[u8]) -> Prepared {
        let records = records(book);
        Prepared {
            schema: declarations::schema(&records),
            wildcards: book[3] == 1,
            ambiguous: records.iter().filter(|r| r.kind == 25).map(|r| name(r.a)).collect(),
        }
    }

    /// A context as the dispatcher hands it over: imports are known, and constants collected.
    pub fn context(&self) -> Context {
        let mut ctx = LowerCtx::new();
        if self.wildcards {
            ctx.wildcard_imports.insert(SmolStr::new("wildcard"));
        }
        ctx.wildcard_origins = self.ambiguous.iter().map(|n| (n.clone(), None)).collect();
        ctx.const_decls = declared_constants(&self.schema).collect();
        Context { ctx, ids: Vec::new() }
    }

    /// The calls, in the order of the parts, and nothing else.
    pub fn lower(&self, context: &mut Context) {
        let (schema, ctx) = (&self.schema, &mut context.ctx);
        context.ids = register_declarations(schema, "", ctx);
        for alias in aliases(schema).filter(|a| !a.type_params.is_empty()) {
            lower_alias(alias, "", ctx);
        }
        for alias in aliases(schema).filter(|a| a.type_params.is_empty()) {
            lower_alias(alias, "", ctx);
        }
        evaluate_constants(ctx);
        let mut numbers = context.ids.iter();
        for decl in &schema.declarations {
            if matches!(decl.node, Decl::Message(_) | Decl::Union(_) | Decl::Newtype(_)) {
                let id = *numbers.next().expect("a number for each declaration");
                let definition = lower_decl(&decl.node, decl.span, ctx);
                *ctx.registry.get_mut(id).expect("a slot for each number") = definition;
            }
        }
    }
}

impl Context {
    /// How many type numbers, diagnostics and stored constants there are.
    pub fn counts(&self) -> [usize; 3] {
        [self.ctx.registry.len(), self.ctx.diagnostics.len(), self.ctx.constants.len()]
    }
}
