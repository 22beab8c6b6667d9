//! "Types": numbers of names, and resolving a type record into result records.

use std::collections::{BTreeMap, BTreeSet};

use crate::lowering::Lowering;
use crate::record::{Record, Span};
use crate::Refusal;

/// "poison 4,294,967,295".
pub const POISON: u32 = u32::MAX;
/// "resolving deeper than 64; the start is 1".
const DEEPEST: u32 = 64;

/// The tables of names, and the numbers given so far.
#[derive(Default)]
pub struct Names {
    given: u32,
    /// A name's own number: 20-22, generic aliases and stubs of bare names.
    own: BTreeMap<u16, u32>,
    /// Names "declared 20-22".
    declared: BTreeSet<u16>,
    /// Names of 25.
    ambiguous: BTreeSet<u16>,
    /// Generic aliases by their number.
    generics: BTreeMap<u32, Generic>,
    /// Plain aliases lowered so far.
    plain: BTreeMap<u16, Tree>,
    /// Stubs of qualified names. Reading: a pair has a number of its own and gives none to either of its names.
    pairs: BTreeMap<(u16, u16), u32>,
}

/// A generic alias: the name of its first parameter, and its target record.
#[derive(Clone, Copy)]
struct Generic {
    parameter: u16,
    target: u16,
}

/// The result tree of a type. Results are written "children first, left before right, never
/// shared", so it is the run of records from its first one to its root.
#[derive(Clone, Copy)]
struct Tree {
    first: u16,
    root: u16,
}

impl Names {
    /// How many numbers are given.
    pub fn given(&self) -> u32 {
        self.given
    }

    fn next(&mut self) -> u32 {
        let number = self.given;
        self.given += 1;
        number
    }

    pub fn declare(&mut self, name: u16) {
        let number = self.next();
        self.own.insert(name, number);
        self.declared.insert(name);
    }

    pub fn mark_ambiguous(&mut self, name: u16) {
        self.ambiguous.insert(name);
    }

    pub fn declare_generic(&mut self, name: u16, parameter: u16, target: u16) {
        let number = self.next();
        self.own.insert(name, number);
        self.generics.insert(number, Generic { parameter, target });
    }

    pub fn add_plain_alias(&mut self, name: u16, first: u16, root: u16) {
        self.plain.insert(name, Tree { first, root });
    }
}

/// What is replaced inside a generic's target: "Only the first parameter is replaced."
#[derive(Clone, Copy)]
struct Substitution {
    parameter: u16,
    argument: u16,
}

impl Lowering<'_> {
    /// Resolves the type of the declaration or item being lowered; returns its result record.
    pub fn resolve_type(&mut self, number: u16) -> Result<u16, Refusal> {
        self.resolve(number, self.own_span(number), 1, None)
    }

    fn own_span(&self, number: u16) -> Span {
        self.book.record(u32::from(number)).span
    }

    /// One type record. Depth is looked at on entering it, its result is written on leaving it
    /// (a decision). `inside` is given where the record stands in a generic's target; `span` is
    /// the span that the type has there.
    ///
    /// Reading: spans are handed on as they were taken. Where the whole target is a use, or is the
    /// parameter, it has the span of the outer use, and hands that one on to what replaces it.
    fn resolve(&mut self, number: u16, span: Span, depth: u32, inside: Option<Substitution>) -> Result<u16, Refusal> {
        if depth > DEEPEST {
            return Err(self.refused(9));
        }
        let record = self.book.record(u32::from(number));
        match record.kind {
            4 => match inside {
                // The parameter goes before every other step (a decision). "[...] an argument as a whole
                // [takes the span] of the parameter it replaces". The argument is not in the target.
                Some(of) if of.parameter == record.a => self.resolve(of.argument, span, depth + 1, None),
                _ => self.resolve_named(record.a, span),
            },
            5 => self.resolve_qualified(record.a, record.b, span),
            6 => self.resolve_generic(record.a, record.b, span, depth, inside.is_some()),
            7 => {
                let a = self.resolve_part(record.a, depth, inside)?;
                self.write_result(Record { a, ..record.without_span() })
            }
            8 => {
                let a = self.resolve_part(record.a, depth, inside)?;
                let b = self.resolve_part(record.b, depth, inside)?;
                self.write_result(Record { a, b, ..record.without_span() })
            }
            // 1, 2, 3 and 9 are carried through.
            _ => self.write_result(record.without_span()),
        }
    }

    /// A child: "parts inside either keep their own" span; "a step to a child [...] adds 1".
    fn resolve_part(&mut self, number: u16, depth: u32, inside: Option<Substitution>) -> Result<u16, Refusal> {
        self.resolve(number, self.own_span(number), depth + 1, inside)
    }

    /// "Named, in order: plain alias (its result copied); declared 20-22; ambiguous (poison, message 0);
    /// known number; with wildcards a fresh stub; else poison, message 1."
    fn resolve_named(&mut self, name: u16, span: Span) -> Result<u16, Refusal> {
        if let Some(&tree) = self.names.plain.get(&name) {
            return self.copy(tree);
        }
        let own = self.names.own.get(&name).copied();
        if let (Some(number), true) = (own, self.names.declared.contains(&name)) {
            return self.write_number(number);
        }
        if self.names.ambiguous.contains(&name) {
            return self.poison(0, name, 0, span);
        }
        // Reading: a name without a number comes as far as "known number" in a book without wildcards too.
        self.note_bare(name);
        if let Some(number) = own {
            return self.write_number(number);
        }
        if self.book.wildcards {
            let number = self.names.next();
            self.names.own.insert(name, number);
            return self.write_number(number);
        }
        self.poison(1, name, 0, span)
    }

    /// "Qualified: known pair; stub if the namespace name has a number; else message 2." No condition
    /// on wildcards is set here.
    fn resolve_qualified(&mut self, namespace: u16, name: u16, span: Span) -> Result<u16, Refusal> {
        if let Some(&number) = self.names.pairs.get(&(namespace, name)) {
            return self.write_number(number);
        }
        self.note_asked(namespace);
        if self.lookup(namespace).is_none() {
            return self.poison(2, namespace, name, span);
        }
        let number = self.names.next();
        self.names.pairs.insert((namespace, name), number);
        self.write_number(number)
    }

    /// "Generic: no number gives message 4 (inside a substitution 1), no generic alias gives 3."
    fn resolve_generic(
        &mut self,
        head: u16,
        argument: u16,
        span: Span,
        depth: u32,
        inside: bool,
    ) -> Result<u16, Refusal> {
        self.note_asked(head);
        let Some(number) = self.lookup(head) else {
            return self.poison(if inside { 1 } else { 4 }, head, 0, span);
        };
        // Reading: the number found is what the generic alias is looked for by, not the head's name
        // again; so a plain alias to a generic alias (K12's number) may be a head as well.
        let Some(&Generic { parameter, target }) = self.names.generics.get(&number) else {
            return self.poison(3, head, 0, span);
        };
        // "An inner generic passes its argument on unsubstituted. A generic's target takes the span of the use".
        self.resolve(target, span, depth + 1, Some(Substitution { parameter, argument }))
    }

    /// "Lookup tries the name's own number, then a plain alias to one; poison counts." A stub hides a
    /// later plain alias of its name here (a decision).
    fn lookup(&self, name: u16) -> Option<u32> {
        self.names.own.get(&name).copied().or_else(|| self.plain_alias_number(name))
    }

    /// The number that a plain alias's result is, where its root is a record 4.
    fn plain_alias_number(&self, name: u16) -> Option<u32> {
        let root = self.names.plain.get(&name)?.root;
        let record = self.results()[usize::from(root)];
        (record.kind == 4).then_some(record.v as u32)
    }

    /// "4 with type number in v"; a is 0 (a decision).
    fn write_number(&mut self, number: u32) -> Result<u16, Refusal> {
        self.write_result(Record { kind: 4, v: u64::from(number), ..Record::default() })
    }

    /// A message at once (a decision), then poison in place of the type.
    /// Reading: messages 2, 3 and 4 give poison as well; no other result could stand there.
    fn poison(&mut self, message: u8, a: u16, b: u16, span: Span) -> Result<u16, Refusal> {
        // "v 0 `UnresolvedType`, 1 `AliasTargetNotFound` (message 3)".
        let v = if message == 3 { 1 } else { 0 };
        self.write_diagnostic(Record { kind: 50, sub: message, a, b, c: 0, v, span })?;
        self.write_number(POISON)
    }

    /// "plain alias (its result copied)": every record again, referring to the new ones, without
    /// diagnostics and without depth (a decision). Returns the new root.
    fn copy(&mut self, tree: Tree) -> Result<u16, Refusal> {
        let moved = self.results().len() as u16 - tree.first;
        for number in tree.first..=tree.root {
            let mut record = self.results()[usize::from(number)];
            if matches!(record.kind, 7 | 8) {
                record.a += moved;
            }
            if record.kind == 8 {
                record.b += moved;
            }
            self.write_result(record)?;
        }
        Ok(tree.root + moved)
    }

    /// For the trace: a bare name of a constant's type that had no number when that part began.
    fn note_bare(&mut self, name: u16) {
        if self.is_new_in_constants(name) {
            self.trace.bare.push((self.at, name));
        }
    }

    /// For the trace: a namespace or head of a constant's type that had no number when that part began.
    fn note_asked(&mut self, name: u16) {
        if self.is_new_in_constants(name) {
            self.trace.asked.push((self.at, name));
        }
    }

    /// Constants are being lowered, and the name had no number when they began. Every plain alias was
    /// there by then, and no name that has one gets a stub since.
    fn is_new_in_constants(&self, name: u16) -> bool {
        match self.constants_began {
            Some(began) => match self.names.own.get(&name) {
                Some(&number) => number >= began,
                None => self.plain_alias_number(name).is_none(),
            },
            None => false,
        }
    }
}
