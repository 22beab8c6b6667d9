//! How far a readable book goes in lowering: counts of results, diagnostics and stored constants, causes 9 and 10, and
//! marks of what was met on the way. No records are written. It is apart from the model: the tests ask it whether the
//! generator reaches what it is meant to reach, and `compare` holds the model's counts and places to it.

use std::collections::{BTreeSet, HashMap, HashSet};

use crate::layout::{Record, NONE};

/// Counts of results, diagnostics and stored constants, or the cause and its place.
pub type Outcome = Result<(usize, usize, usize), (u8, u32)>;

/// The outcome of lowering with slices of these lengths.
pub fn counted(wildcards: bool, records: &[Record], lent: (usize, usize)) -> Outcome {
    marked(wildcards, records, lent).0
}

/// The outcome, and marks of what was met.
pub fn marked(wildcards: bool, records: &[Record], lent: (usize, usize)) -> (Outcome, BTreeSet<&'static str>) {
    let mut state = State::new(wildcards, records, lent);
    let outcome = state.lower();
    (outcome, state.marks)
}

/// What a type came to: its result records, and what the last of them is.
#[derive(Clone, Copy)]
struct Tree {
    count: usize,
    is: Is,
}

#[derive(Clone, Copy, PartialEq)]
enum Is {
    Number,
    /// The number of the generic alias of that name.
    Generic(u16),
    Poison,
    Other,
}

/// A target with its parameters and argument.
#[derive(Clone, Copy)]
struct Within {
    alias: u16,
    argument: u16,
}

#[derive(Default)]
struct State<'a> {
    records: &'a [Record],
    wildcards: bool,
    limits: (usize, usize),
    results: usize,
    diagnostics: usize,
    /// What is being lowered.
    place: u32,
    declared: HashSet<u16>,
    ambiguous: HashSet<u16>,
    /// Generic aliases: target and parameters.
    generics: HashMap<u16, (u16, Vec<u16>)>,
    /// Names with a number of their own.
    numbered: HashSet<u16>,
    pairs: HashSet<(u16, u16)>,
    /// Names of all plain aliases, and what the lowered ones came to.
    plain_names: HashSet<u16>,
    plains: HashMap<u16, Tree>,
    stubs: HashSet<u16>,
    /// Arguments that are being resolved.
    arguments: usize,
    marks: BTreeSet<&'static str>,
}

type Done<T> = Result<T, (u8, u32)>;

impl<'a> State<'a> {
    fn new(wildcards: bool, records: &'a [Record], limits: (usize, usize)) -> State<'a> {
        let limits = ((limits.0 / 24).min(2_048), (limits.1 / 24).min(256));
        let mut state = State { records, wildcards, limits, ..State::default() };
        (0..records.len()).for_each(|number| state.declare(number));
        state
    }

    /// Takes in the names that a record declares.
    fn declare(&mut self, number: usize) {
        let r = self.records[number];
        match r.kind {
            20..=22 => {
                self.declared.insert(r.a);
                self.numbered.insert(r.a);
            }
            23 => self.declare_alias(r, params(self.records, number)),
            25 => {
                self.ambiguous.insert(r.a);
            }
            _ => {}
        }
    }

    fn declare_alias(&mut self, r: Record, params: Vec<u16>) {
        if params.is_empty() {
            self.plain_names.insert(r.a);
        } else {
            self.generics.insert(r.a, (r.b, params));
            self.numbered.insert(r.a);
        }
    }

    fn lower(&mut self) -> Outcome {
        self.aliases()?;
        let stored = self.constants()?;
        self.bodies()?;
        Ok((self.results, self.diagnostics, stored))
    }

    fn mark(&mut self, mark: &'static str) {
        self.marks.insert(mark);
    }

    fn write(&mut self, count: usize) -> Done<()> {
        self.results += count;
        if self.results > self.limits.0 {
            return Err((10, self.place));
        }
        Ok(())
    }

    fn say(&mut self, mark: &'static str) -> Done<()> {
        self.mark(mark);
        self.diagnostics += 1;
        if self.diagnostics > self.limits.1 {
            return Err((10, self.place));
        }
        Ok(())
    }

    /// A leaf of one record.
    fn leaf(&mut self, is: Is) -> Done<Tree> {
        self.write(1)?;
        Ok(Tree { count: 1, is })
    }

    /// Poison with a diagnostic.
    fn poison(&mut self, mark: &'static str) -> Done<Tree> {
        self.say(mark)?;
        self.leaf(Is::Poison)
    }

    /// Whether a namespace or head has a number.
    fn has_number(&mut self, name: u16, head: bool) -> bool {
        let plain = self.plains.get(&name).map(|tree| tree.is);
        let mark = match (head, self.numbered.contains(&name), plain) {
            (_, true, Some(_)) => "stub before alias in lookup",
            (false, true, _) if self.stubs.contains(&name) => "namespace stub",
            (true, true, _) if self.stubs.contains(&name) => "head stub",
            (false, true, _) if self.generics.contains_key(&name) => "namespace generic",
            (false, true, _) => "namespace declared",
            (true, true, _) => "head declared or generic",
            (false, _, Some(Is::Number | Is::Generic(_))) => "namespace alias",
            (true, _, Some(Is::Number)) => "head alias",
            (true, _, Some(Is::Generic(_))) => "head alias of a generic",
            (false, _, Some(Is::Poison)) => "namespace poison alias",
            (true, _, Some(Is::Poison)) => "head poison alias",
            (false, _, Some(Is::Other)) => "namespace alias without number",
            (true, _, Some(Is::Other)) => "head alias without number",
            (false, false, None) => "namespace unknown",
            (true, false, None) => "head unknown",
        };
        self.mark(mark);
        self.numbered.contains(&name) || plain.is_some_and(|is| is != Is::Other)
    }

    /// The generic alias whose number a head has, by its own name or as a plain alias to it.
    fn generic_of(&self, head: u16) -> Option<u16> {
        if self.numbered.contains(&head) {
            return self.generics.contains_key(&head).then_some(head);
        }
        match self.plains.get(&head)?.is {
            Is::Generic(name) => Some(name),
            _ => None,
        }
    }

    /// Resolves a type at that depth, in a target where given.
    fn resolve(&mut self, at: u16, depth: usize, within: Option<Within>) -> Done<Tree> {
        if depth > 64 {
            return Err((9, self.place));
        }
        if depth == 64 {
            self.mark("depth 64");
        }
        let r = self.records[usize::from(at)];
        match r.kind {
            4 => self.named_or_parameter(r, depth, within),
            5 => self.qualified(r, within),
            6 => self.generic(r, depth, within),
            7 => {
                let child = self.resolve(r.a, depth + 1, within)?;
                self.write(1)?;
                Ok(Tree { count: child.count + 1, is: Is::Other })
            }
            8 => {
                let left = self.resolve(r.a, depth + 1, within)?;
                let right = self.resolve(r.b, depth + 1, within)?;
                self.write(1)?;
                Ok(Tree { count: left.count + right.count + 1, is: Is::Other })
            }
            _ => self.leaf(Is::Other),
        }
    }

    /// The parameters of the alias whose target this is.
    fn params_within(&self, within: Option<Within>) -> &[u16] {
        within.map_or(&[], |within| &self.generics[&within.alias].1)
    }

    fn named_or_parameter(&mut self, r: Record, depth: usize, within: Option<Within>) -> Done<Tree> {
        let params = self.params_within(within);
        let (first, times) = (params.first() == Some(&r.a), params.iter().filter(|&&name| name == r.a).count());
        if let (Some(within), true) = (within, first) {
            self.mark("parameter replaced");
            if times > 1 {
                self.mark("parameter twice");
            }
            self.arguments += 1;
            let tree = self.resolve(within.argument, depth + 1, None)?;
            self.arguments -= 1;
            return Ok(tree);
        }
        if times > 0 {
            self.mark("later parameter");
        }
        self.named(r.a)
    }

    fn qualified(&mut self, r: Record, within: Option<Within>) -> Done<Tree> {
        if self.params_within(within).contains(&r.a) {
            self.mark("parameter as namespace");
        }
        if self.pairs.contains(&(r.a, r.b)) {
            self.mark("pair again");
            return self.leaf(Is::Number);
        }
        if !self.has_number(r.a, false) {
            return self.poison("message 2");
        }
        self.pairs.insert((r.a, r.b));
        self.leaf(Is::Number)
    }

    fn generic(&mut self, r: Record, depth: usize, within: Option<Within>) -> Done<Tree> {
        if self.params_within(within).contains(&r.a) {
            self.mark("parameter as head");
        }
        let inside = within.is_some();
        if !self.has_number(r.a, true) {
            let outside = if self.arguments > 0 { "message 4 in an argument" } else { "message 4" };
            return self.poison(if inside { "message 1 for a head" } else { outside });
        }
        let Some(alias) = self.generic_of(r.a) else {
            return self.poison(if inside { "message 3 in a target" } else { "message 3" });
        };
        let target = self.generics[&alias].0;
        if inside {
            self.mark("generic in a target");
        }
        self.resolve(target, depth + 1, Some(Within { alias, argument: r.b }))
    }

    fn named(&mut self, name: u16) -> Done<Tree> {
        let ambiguous = self.ambiguous.contains(&name);
        if let Some(&tree) = self.plains.get(&name) {
            self.mark(match tree.is {
                _ if ambiguous => "alias, ambiguous",
                Is::Number | Is::Generic(_) => "alias of a number",
                Is::Poison => "alias of poison",
                Is::Other if tree.count > 1 => "alias of a tree",
                Is::Other => "alias of a leaf",
            });
            self.write(tree.count)?;
            return Ok(tree);
        }
        if self.plain_names.contains(&name) {
            self.mark("alias not yet there");
        }
        if self.declared.contains(&name) {
            self.mark(if ambiguous { "declared, ambiguous" } else { "declared" });
            return self.leaf(Is::Number);
        }
        if ambiguous {
            let generic = self.generics.contains_key(&name);
            return self.poison(if generic { "message 0 for a generic" } else { "message 0" });
        }
        if self.numbered.contains(&name) {
            self.mark(if self.stubs.contains(&name) { "stub again" } else { "bare generic" });
            return self.leaf(if self.stubs.contains(&name) { Is::Number } else { Is::Generic(name) });
        }
        if !self.wildcards {
            return self.poison("message 1");
        }
        self.mark(if self.plain_names.contains(&name) { "stub for a later alias" } else { "stub" });
        self.numbered.insert(name);
        self.stubs.insert(name);
        self.leaf(Is::Number)
    }

    fn aliases(&mut self) -> Done<()> {
        for number in 0..self.records.len() {
            let r = self.records[number];
            if r.kind != 23 || self.generics.contains_key(&r.a) {
                continue;
            }
            self.place = number as u32;
            let tree = self.resolve(r.b, 1, None)?;
            self.write(1)?;
            self.plains.insert(r.a, tree);
        }
        Ok(())
    }

    fn references(&self, at: u16, out: &mut Vec<u16>) {
        let r = self.records[usize::from(at)];
        match r.kind {
            11 => out.push(r.a),
            12 => {
                self.references(r.a, out);
                self.references(r.b, out);
            }
            _ => {}
        }
    }

    fn value(&self, at: u16, stored: &HashMap<u16, i64>) -> Option<i64> {
        let r = self.records[usize::from(at)];
        match (r.kind, r.sub) {
            (10, 0 | 1 | 3) => Some(r.v as i64),
            (10, _) => None,
            (11, _) => stored.get(&r.a).copied(),
            _ => {
                let (a, b) = (self.value(r.a, stored)?, self.value(r.b, stored)?);
                match r.sub {
                    0 => a.checked_add(b),
                    1 => a.checked_sub(b),
                    2 => a.checked_mul(b),
                    3 => a.checked_div(b),
                    _ => None,
                }
            }
        }
    }

    fn constants(&mut self) -> Done<usize> {
        let all: Vec<usize> = (0..self.records.len()).filter(|&at| self.records[at].kind == 24).collect();
        let names: HashSet<u16> = all.iter().map(|&at| self.records[at].a).collect();
        let mut done: HashSet<u16> = HashSet::new();
        let mut stored: HashMap<u16, i64> = HashMap::new();
        loop {
            let next = all.iter().copied().find(|&at| {
                let mut references = Vec::new();
                self.references(self.records[at].c, &mut references);
                references.retain(|name| names.contains(name));
                let distinct: HashSet<u16> = references.iter().copied().collect();
                !done.contains(&self.records[at].a)
                    && distinct.len() == references.len()
                    && distinct.iter().all(|name| done.contains(name))
            });
            let Some(at) = next else { break };
            let r = self.records[at];
            self.place = at as u32;
            self.resolve(r.b, 1, None)?;
            match self.value(r.c, &stored) {
                Some(value) => {
                    stored.insert(r.a, value);
                }
                None => self.say("message 5")?,
            }
            self.write(1)?;
            done.insert(r.a);
        }
        if done.len() < all.len() {
            self.mark("constant not reached");
        }
        if done.len() > 4 {
            self.mark("several constants");
        }
        Ok(stored.len())
    }

    fn constraint(&mut self, at: u16) -> Done<()> {
        let r = self.records[usize::from(at)];
        match (r.kind, r.sub) {
            (13, 2) | (14, _) => self.constraint(r.a)?,
            (13 | 15, _) => {
                self.constraint(r.a)?;
                self.constraint(r.b)?;
            }
            _ => {}
        }
        self.write(1)
    }

    fn bodies(&mut self) -> Done<()> {
        for number in 0..self.records.len() {
            self.place = number as u32;
            self.body(self.records[number])?;
        }
        Ok(())
    }

    /// What a record of a body, or a newtype, comes to.
    fn body(&mut self, r: Record) -> Done<()> {
        match r.kind {
            20 | 21 | 33 => self.write(1),
            22 => {
                self.resolve(r.b, 1, None)?;
                self.write(1)
            }
            31 => {
                self.resolve(r.b, 1, None)?;
                if r.c != NONE {
                    self.constraint(r.c)?;
                }
                self.write(2)
            }
            32 => {
                if r.c != NONE {
                    self.resolve(r.c, 1, None)?;
                }
                self.write(1)
            }
            _ => Ok(()),
        }
    }
}

/// The parameters of an alias.
fn params(records: &[Record], alias: usize) -> Vec<u16> {
    let behind = records[alias + 1..].iter().filter(|r| r.kind >= 20);
    behind.take_while(|r| r.kind == 30).map(|r| r.a).collect()
}
