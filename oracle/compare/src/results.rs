//! Reads the records of an accepted book back into what they say, and holds them to the format's layout on the way:
//! every field, "children first, left before right, never shared", 46 behind its 45, nothing left over.

use books::Record;
use vexil::facts::{Body, Constraint, Diagnostic, Encoding, Field, Operand, Span, Tombstone, Type, Variant};

const NONE: u16 = 65_535;

/// A plain alias, 40.
#[derive(Debug)]
pub struct Alias {
    pub name: u16,
    pub resolved: Type,
    pub span: Span,
}

/// A reached constant, 41.
#[derive(Debug)]
pub struct Reached {
    pub name: u16,
    pub stored: bool,
    pub value: i64,
    pub resolved: Type,
    pub span: Span,
}

/// What the result records say.
#[derive(Debug, Default)]
pub struct Results {
    pub aliases: Vec<Alias>,
    pub reached: Vec<Reached>,
    pub bodies: Vec<Body>,
}

/// The records at the front of a slice.
pub fn records(slice: &[u8], count: u32) -> Vec<Record> {
    slice.chunks(24).take(count as usize).map(Record::read).collect()
}

/// A tree that waits for its parent: its root and how many records it has.
enum Tree {
    Type(Type),
    Constraint(Constraint),
    Operand(Operand),
}

struct Waiting {
    root: usize,
    size: usize,
    tree: Tree,
}

#[derive(Default)]
struct Reader {
    waiting: Vec<Waiting>,
    results: Results,
    /// A 45 that still waits for its 46.
    field: Option<Field>,
}

type Step<T> = Result<T, String>;

/// What the records say, or where they break the layout.
pub fn read(records: &[Record]) -> Step<Results> {
    let mut reader = Reader::default();
    for (n, r) in records.iter().enumerate() {
        reader.next(n, *r).map_err(|why| format!("result {n}: {why}"))?;
    }
    match (reader.waiting.len(), reader.field) {
        (0, None) => Ok(reader.results),
        _ => Err("something is left over at the end".to_string()),
    }
}

fn span(r: Record) -> Span {
    (r.offset, r.len)
}

fn holds(fact: bool, why: &str) -> Step<()> {
    if fact {
        Ok(())
    } else {
        Err(why.to_string())
    }
}

impl Reader {
    fn next(&mut self, n: usize, r: Record) -> Step<()> {
        holds(self.field.is_some() == (r.kind == 46), "a 46 stands behind its 45 and nowhere else")?;
        match r.kind {
            1..=4 | 7..=9 => self.resolved(n, r),
            13..=16 => self.constraint(n, r),
            40 | 41 | 48 => self.over_type(n, r),
            42..=44 => self.opens(r),
            45 => self.field(n, r),
            46 => self.encoding(r),
            47 => self.tombstone(n, r),
            kind => Err(format!("kind {kind}")),
        }
    }

    /// Takes the tree whose root is `at`: the last one that waits, standing right before `end`.
    fn take(&mut self, at: u16, end: usize) -> Step<Waiting> {
        let last = self.waiting.pop().ok_or("a child is missing")?;
        holds(last.root == at as usize && last.root + 1 == end, "a child is not where it should be")?;
        Ok(last)
    }

    fn take_type(&mut self, at: u16, end: usize) -> Step<(Type, usize)> {
        match self.take(at, end)? {
            Waiting { tree: Tree::Type(t), size, .. } => Ok((t, size)),
            _ => Err("a child that is no type".to_string()),
        }
    }

    fn take_constraint(&mut self, at: u16, end: usize) -> Step<(Constraint, usize)> {
        match self.take(at, end)? {
            Waiting { tree: Tree::Constraint(c), size, .. } => Ok((c, size)),
            _ => Err("a child that is no constraint".to_string()),
        }
    }

    fn take_operand(&mut self, at: u16, end: usize) -> Step<Operand> {
        match self.take(at, end)?.tree {
            Tree::Operand(o) => Ok(o),
            _ => Err("a child that is no operand".to_string()),
        }
    }

    fn wait(&mut self, root: usize, size: usize, tree: Tree) -> Step<()> {
        self.waiting.push(Waiting { root, size, tree });
        Ok(())
    }

    fn resolved(&mut self, n: usize, r: Record) -> Step<()> {
        holds(span(r) == (0, 0) && r.c == 0, "a type with a span or a c")?;
        let a_only = r.b == 0 && r.v == 0;
        let (size, t) = match r.kind {
            1 => (1, Type::Primitive(r.sub)),
            2 => (1, Type::SubByte { signed: r.sub == 1, bits: r.a as u8 }),
            3 => (1, Type::Semantic(r.sub)),
            4 => (1, Type::Named(r.v as u32)),
            7 => {
                let (child, size) = self.take_type(r.a, n)?;
                (1 + size, Type::One { sub: r.sub, size: r.v, child: Box::new(child) })
            }
            8 => {
                let (right, high) = self.take_type(r.b, n)?;
                let (left, low) = self.take_type(r.a, n - high)?;
                (1 + low + high, Type::Two { sub: r.sub, left: Box::new(left), right: Box::new(right) })
            }
            _ => (1, Type::Bits(r.a)),
        };
        let rest = match r.kind {
            1 => r.sub < 14 && r.a == 0 && a_only,
            2 => r.sub < 2 && r.a < 256 && a_only,
            3 => r.sub < 6 && r.a == 0 && a_only,
            4 => r.sub == 0 && r.a == 0 && r.b == 0 && r.v >> 32 == 0,
            7 => r.sub < 10 && r.b == 0 && (r.sub == 2 || r.v == 0),
            8 => r.sub < 2 && r.v == 0,
            _ => r.sub == 0 && a_only,
        };
        holds(rest, "a type with a field outside its values")?;
        self.wait(n, size, Tree::Type(t))
    }

    fn constraint(&mut self, n: usize, r: Record) -> Step<()> {
        holds(span(r) == (0, 0), "a constraint with a span")?;
        let length = r.c == 1;
        match r.kind {
            13 => self.joined(n, r),
            14 => {
                holds(r.sub < 6 && r.b == 0 && r.c < 2 && r.v == 0, "a comparison outside its values")?;
                let operand = self.take_operand(r.a, n)?;
                self.wait(n, 2, Tree::Constraint(Constraint::Comparison { op: r.sub, length, operand }))
            }
            15 => {
                holds(r.sub < 2 && r.c < 2 && r.v == 0, "a range outside its values")?;
                let high = self.take_operand(r.b, n)?;
                let low = self.take_operand(r.a, n - 1)?;
                self.wait(n, 3, Tree::Constraint(Constraint::Range { exclusive: r.sub == 1, length, low, high }))
            }
            _ => self.operand(n, r),
        }
    }

    fn joined(&mut self, n: usize, r: Record) -> Step<()> {
        holds(r.sub < 3 && r.c == 0 && r.v == 0 && (r.sub < 2 || r.b == 0), "a joined constraint outside its values")?;
        let (last, high) = self.take_constraint(if r.sub == 2 { r.a } else { r.b }, n)?;
        let last = Box::new(last);
        if r.sub == 2 {
            return self.wait(n, 1 + high, Tree::Constraint(Constraint::Not(last)));
        }
        let (first, low) = self.take_constraint(r.a, n - high)?;
        let first = Box::new(first);
        let both = if r.sub == 0 { Constraint::And(first, last) } else { Constraint::Or(first, last) };
        self.wait(n, 1 + low + high, Tree::Constraint(both))
    }

    fn operand(&mut self, n: usize, r: Record) -> Step<()> {
        holds(r.b == 0 && r.c == 0, "an operand with a b or c")?;
        let (texts, bits) = (r.sub == 2 || r.sub == 5, r.sub < 2 || r.sub == 3);
        holds((texts || r.a == 0) && (bits || r.v == 0), "an operand with an unused field")?;
        let o = match r.sub {
            0 => Operand::Int(r.v as i64),
            1 => Operand::Float(r.v),
            2 => Operand::String(r.a),
            3 if r.v < 2 => Operand::Bool(r.v == 1),
            5 => Operand::Reference(r.a),
            _ => return Err("an operand outside its values".to_string()),
        };
        self.wait(n, 1, Tree::Operand(o))
    }

    /// 40, 41 and 48: a name over a type.
    fn over_type(&mut self, n: usize, r: Record) -> Step<()> {
        holds(r.c == 0, "a c")?;
        holds(self.waiting.len() == 1, "more than one tree waits")?;
        let (resolved, _) = self.take_type(r.b, n)?;
        let (name, span) = (r.a, span(r));
        holds(r.kind == 41 || (r.sub == 0 && r.v == 0), "a sub or v")?;
        match r.kind {
            40 => self.results.aliases.push(Alias { name, resolved, span }),
            41 => {
                holds(r.sub == 1 || (r.sub == 0 && r.v == 0), "an unstored constant with a value")?;
                let value = r.v as i64;
                self.results.reached.push(Reached { name, stored: r.sub == 1, value, resolved, span });
            }
            _ => self.results.bodies.push(Body::Newtype { name, span, inner: resolved }),
        }
        self.in_order(r.kind)
    }

    /// Plain aliases, then constants, then bodies.
    fn in_order(&self, kind: u8) -> Step<()> {
        let r = &self.results;
        holds(kind != 40 || (r.reached.is_empty() && r.bodies.is_empty()), "an alias behind a later part")?;
        holds(kind != 41 || r.bodies.is_empty(), "a constant behind a body")
    }

    /// 42, 43 and 44, which precede their items.
    fn opens(&mut self, r: Record) -> Step<()> {
        holds(self.waiting.is_empty(), "a tree waits")?;
        holds(r.sub == 0 && r.b == 0 && r.c == 0, "a sub, b or c")?;
        let (name, span) = (r.a, span(r));
        let (fields, tombstones) = (Vec::new(), Vec::new());
        match (r.kind, self.results.bodies.last_mut()) {
            (42, _) if r.v == 0 => self.results.bodies.push(Body::Message { name, span, fields, tombstones }),
            (43, _) if r.v == 0 => {
                self.results.bodies.push(Body::Union { name, span, variants: Vec::new(), tombstones })
            }
            (44, Some(Body::Union { variants, .. })) if r.v >> 32 == 0 => {
                variants.push(Variant { name, span, ordinal: r.v as u32, fields, tombstones })
            }
            _ => return Err("a variant outside a union, or a v".to_string()),
        }
        Ok(())
    }

    fn field(&mut self, n: usize, r: Record) -> Step<()> {
        holds(r.sub == 0 && r.v >> 32 == 0, "a field outside its values")?;
        holds(self.waiting.len() == 1 + (r.c != NONE) as usize, "too many or too few trees wait")?;
        let mut end = n;
        let mut constraint = None;
        if r.c != NONE {
            let (c, size) = self.take_constraint(r.c, end)?;
            constraint = Some(c);
            end -= size;
        }
        let (resolved, _) = self.take_type(r.b, end)?;
        let encoding = Encoding { base: 0, delta: false, limit: None };
        self.field = Some(Field { name: r.a, span: span(r), ordinal: r.v as u32, resolved, encoding, constraint });
        Ok(())
    }

    fn encoding(&mut self, r: Record) -> Step<()> {
        let values = r.sub < 3 && r.a < 2 && r.b < 2 && r.c == 0 && (r.b == 1 || r.v == 0);
        holds(values && span(r) == (0, 0), "an encoding outside its values")?;
        let mut field = self.field.take().ok_or("no field")?;
        field.encoding = Encoding { base: r.sub, delta: r.a == 1, limit: (r.b == 1).then_some(r.v) };
        match self.results.bodies.last_mut() {
            Some(Body::Message { fields, .. }) => fields.push(field),
            Some(Body::Union { variants, .. }) => variants.last_mut().ok_or("no variant")?.fields.push(field),
            _ => return Err("a field outside a body".to_string()),
        }
        Ok(())
    }

    fn tombstone(&mut self, n: usize, r: Record) -> Step<()> {
        holds(r.sub < 2 && r.v >> 32 == 0, "a tombstone outside its values")?;
        holds(self.waiting.len() == (r.c != NONE) as usize, "too many or too few trees wait")?;
        let original = if r.c == NONE { None } else { Some(self.take_type(r.c, n)?.0) };
        let some = |s: u16| (s != NONE).then_some(s);
        let t = Tombstone { span: span(r), ordinal: r.v as u32, reason: some(r.a), since: some(r.b), original };
        match (r.sub, self.results.bodies.last_mut()) {
            (0, Some(Body::Message { tombstones, .. })) => tombstones.push(t),
            (0, Some(Body::Union { variants, .. })) => variants.last_mut().ok_or("no variant")?.tombstones.push(t),
            (1, Some(Body::Union { tombstones, .. })) => tombstones.push(t),
            _ => return Err("a tombstone outside a body".to_string()),
        }
        Ok(())
    }
}

/// What the diagnostic records say.
pub fn diagnostics(records: &[Record]) -> Step<Vec<Diagnostic>> {
    records
        .iter()
        .map(|r| {
            holds(r.kind == 50 && r.c == 0 && r.v < 3, "a diagnostic outside its values")?;
            Ok(Diagnostic { message: r.sub, class: r.v as u8, name: r.a, second: r.b, span: span(*r) })
        })
        .collect()
}
