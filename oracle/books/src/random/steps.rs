//! Types whose resolving takes an exact number of steps.

use super::draft::Id;
use super::maker::Maker;

impl Maker<'_> {
    /// A name that the plan does not know and that was not given out before.
    pub fn fresh_name(&mut self) -> u16 {
        let name = (3_700..4_095).chain(0..3_000).find(|name| !self.plan.pool.contains(name)).unwrap_or_default();
        self.plan.pool.push(name);
        name
    }

    /// The type inside so many types with one child.
    fn wrapped(&mut self, mut top: Id, times: usize) -> Id {
        for _ in 0..times {
            top = self.one_child(top);
        }
        top
    }

    /// Declares a generic alias with a fresh name.
    fn declare_generic(&mut self, name: u16, target: Id, param: u16) {
        self.alias(name, target);
        let id = self.leaf(30, 0, param, 0, 0);
        self.draft.item(id);
    }

    /// A type whose resolving goes to exactly that depth, with the generic aliases it needs. `steps` is at least 6.
    pub fn stepped(&mut self, steps: usize) -> Id {
        match self.rng.below(5) {
            0 => self.stepped_argument(steps),
            1 => self.stepped_chain(steps),
            2 => self.stepped_target(steps),
            3 => self.stepped_nested(steps),
            _ => self.stepped_chain_argument(steps),
        }
    }

    /// So many parts of one length, at random, none above 60.
    fn parts(&mut self, sum: usize) -> [usize; 3] {
        loop {
            let first = self.rng.between(0, sum);
            let second = self.rng.between(0, sum - first);
            let parts = [first, second, sum - first - second];
            if parts.iter().all(|&part| part <= 60) && parts[0] + parts[2] <= 62 {
                return parts;
            }
        }
    }

    /// w types, a use, a target of k types and the parameter, an argument of m + 1 records: w + k + m + 3.
    fn stepped_argument(&mut self, steps: usize) -> Id {
        let [w, k, m] = self.parts(steps - 3);
        let (name, param) = (self.fresh_name(), 3_000);
        let inner = self.named(param);
        let target = self.wrapped(inner, k);
        self.declare_generic(name, target, param);
        let leaf = self.plain_leaf();
        let argument = self.wrapped(leaf, m);
        let usage = self.generic(name, argument);
        self.wrapped(usage, w)
    }

    /// w types, a use, n generics one behind the other, the last with a leaf as target: w + n + 1.
    fn stepped_chain(&mut self, steps: usize) -> Id {
        let most = (steps - 1).min(60);
        let w = if self.rng.chance(2) { 0 } else { self.rng.between(0, most) };
        let usage = self.chain(steps - 1 - w, None);
        self.wrapped(usage, w)
    }

    /// Declares n generics, each the target of the one before, and gives a use of the first.
    fn chain(&mut self, n: usize, last: Option<Id>) -> Id {
        let param = 3_001;
        let names: Vec<u16> = (0..n).map(|_| self.fresh_name()).collect();
        let mut target = match last {
            Some(id) => id,
            None => self.plain_leaf(),
        };
        for &name in names.iter().rev() {
            self.declare_generic(name, target, param);
            let argument = if self.rng.chance(2) { self.named(param) } else { self.plain_leaf() };
            target = self.generic(name, argument);
        }
        target
    }

    /// A chain of n generics whose last target is k types over a leaf: n + k + 1.
    fn stepped_chain_argument(&mut self, steps: usize) -> Id {
        let k = self.rng.between(0, (steps - 2).min(60));
        let leaf = self.plain_leaf();
        let last = self.wrapped(leaf, k);
        self.chain(steps - 1 - k, Some(last))
    }

    /// w types, a use, a target of k types over a leaf; the argument is not named: w + k + 2.
    fn stepped_target(&mut self, steps: usize) -> Id {
        let low = (steps - 2).saturating_sub(60);
        let k = self.rng.between(low, (steps - 2).min(60));
        let name = self.fresh_name();
        let leaf = self.plain_leaf();
        let target = self.wrapped(leaf, k);
        self.declare_generic(name, target, 3_002);
        let argument = self.plain_leaf();
        let usage = self.generic(name, argument);
        self.wrapped(usage, steps - 2 - k)
    }

    /// w types, then j uses of a generic whose target is its parameter, each the argument of the one before:
    /// w + 2j + 1.
    fn stepped_nested(&mut self, steps: usize) -> Id {
        let (name, param) = (self.fresh_name(), 3_003);
        let target = self.named(param);
        self.declare_generic(name, target, param);
        let low = (steps - 1).saturating_sub(56).div_ceil(2).max(5.min((steps - 1) / 2));
        let j = self.rng.between(low, (steps - 1) / 2);
        let mut top = self.plain_leaf();
        for _ in 0..j {
            top = self.generic(name, top);
        }
        self.wrapped(top, steps - 1 - 2 * j)
    }
}
