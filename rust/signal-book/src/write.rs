//! Types, constraints and diagnostics in words.

use crate::diagnostics::{Diagnostic, Told};
use crate::record::{Name, Text};
use crate::results::{Constraint, ConstraintOperand, FieldConstraint, ResolvedType, Type, TypeId};
use std::fmt;

/// The words behind the numbers of a book. A service has them from its parser; what is not given here stays a number.
///
/// ```
/// use signal_book::{lower, BookBuilder, Name, Words, DIAGNOSTICS_LIMIT, RESULTS_LIMIT};
///
/// struct Station(Vec<&'static str>);
///
/// impl Words for Station {
///     fn name(&self, name: Name) -> String {
///         self.0.get(usize::from(name.number())).map_or(name.to_string(), |word| word.to_string())
///     }
/// }
///
/// let station = Station(vec!["Cabin", "Door"]);
/// let [cabin, door] = [0, 1].map(|number| Name::new(number).unwrap());
/// let mut book = BookBuilder::new();
/// let ty = book.named(door, (16, 4));
/// book.newtype(cabin, ty, (0, 20));
///
/// let (mut results, mut diagnostics) = (vec![0; RESULTS_LIMIT], vec![0; DIAGNOSTICS_LIMIT]);
/// let lowered = lower(&book.finish()?, &mut results, &mut diagnostics)?;
/// let diagnostic = lowered.diagnostics().iter().next().unwrap();
/// assert_eq!(diagnostic.in_words(&station).to_string(), "the type Door is not known");
/// # Ok::<(), Box<dyn std::error::Error>>(())
/// ```
pub trait Words {
    /// The word of a name.
    fn name(&self, name: Name) -> String {
        name.to_string()
    }

    /// The text of a string.
    fn text(&self, text: Text) -> String {
        text.to_string()
    }

    /// What a type is called.
    fn type_id(&self, id: TypeId) -> String {
        id.to_string()
    }
}

/// No words: every number as it is.
#[derive(Clone, Copy, Debug)]
pub struct Numbers;

impl Words for Numbers {}

/// A view that is printed with words for its numbers.
#[derive(Clone, Copy)]
pub struct InWords<'w, T> {
    view: T,
    words: &'w dyn Words,
}

/// The way from a view to its words.
macro_rules! in_words {
    ($($name:ident)*) => {$(
        impl<'a> $name<'a> {
            /// The same, printed with these words.
            pub fn in_words<'w>(self, words: &'w dyn Words) -> InWords<'w, $name<'a>> {
                InWords { view: self, words }
            }
        }
    )*};
}

in_words! { Type Constraint Diagnostic }

/// What is still to be printed of a tree.
enum Rest<T> {
    Word(&'static str),
    Part(T),
}

/// Prints a tree, however deep it is: what is still to be printed is kept in a list, last first, and not on the stack. `open`
/// prints the front of a part, and adds what follows it.
fn print<T>(
    f: &mut fmt::Formatter,
    root: T,
    open: impl Fn(&mut fmt::Formatter, T, &mut Vec<Rest<T>>) -> fmt::Result,
) -> fmt::Result {
    let mut rest = vec![Rest::Part(root)];
    while let Some(next) = rest.pop() {
        match next {
            Rest::Word(word) => f.write_str(word)?,
            Rest::Part(part) => open(f, part, &mut rest)?,
        }
    }
    Ok(())
}

/// Two parts, with a word between them and one behind.
fn two<T>(left: T, between: &'static str, right: T, behind: &'static str) -> [Rest<T>; 4] {
    [Rest::Word(behind), Rest::Part(right), Rest::Word(between), Rest::Part(left)]
}

impl fmt::Display for InWords<'_, Type<'_>> {
    fn fmt(&self, f: &mut fmt::Formatter) -> fmt::Result {
        print(f, self.view, |f, ty, rest| self.open(f, ty.resolved(), rest))
    }
}

/// The word and the part of a type that is made of one other.
fn of_one(ty: ResolvedType) -> Option<(&'static str, Type)> {
    match ty {
        ResolvedType::Optional(inner) => Some(("optional", inner)),
        ResolvedType::Array(inner) => Some(("array", inner)),
        ResolvedType::FixedArray(inner, _) => Some(("array", inner)),
        ResolvedType::Set(inner) => Some(("set", inner)),
        ResolvedType::Vec2(inner) => Some(("vec2", inner)),
        ResolvedType::Vec3(inner) => Some(("vec3", inner)),
        ResolvedType::Vec4(inner) => Some(("vec4", inner)),
        ResolvedType::Quat(inner) => Some(("quat", inner)),
        ResolvedType::Mat3(inner) => Some(("mat3", inner)),
        ResolvedType::Mat4(inner) => Some(("mat4", inner)),
        _ => None,
    }
}

impl<'a> InWords<'_, Type<'a>> {
    fn open(&self, f: &mut fmt::Formatter, ty: ResolvedType<'a>, rest: &mut Vec<Rest<Type<'a>>>) -> fmt::Result {
        if let Some((word, inner)) = of_one(ty) {
            rest.extend([Rest::Word(">"), Rest::Part(inner)]);
            f.write_str(word)?;
        }
        match ty {
            ResolvedType::Primitive(primitive) => write!(f, "{primitive}"),
            ResolvedType::SubByte { signed, bits } => write!(f, "{}{bits}-bit", if signed { "signed " } else { "" }),
            ResolvedType::Semantic(semantic) => write!(f, "{semantic}"),
            ResolvedType::Named(id) => f.write_str(&self.words.type_id(id)),
            ResolvedType::BitsInline(list) => write!(f, "bits of list {list}"),
            ResolvedType::FixedArray(_, size) => write!(f, "[{size}]<"),
            ResolvedType::Map(key, value) => {
                rest.extend(two(key, ", ", value, ">"));
                f.write_str("map<")
            }
            ResolvedType::Result(ok, err) => {
                rest.extend(two(ok, ", ", err, ">"));
                f.write_str("result<")
            }
            _ => f.write_str("<"),
        }
    }
}

impl fmt::Display for InWords<'_, Constraint<'_>> {
    fn fmt(&self, f: &mut fmt::Formatter) -> fmt::Result {
        print(f, self.view, |f, constraint, rest| self.open(f, constraint.constraint(), rest))
    }
}

impl<'a> InWords<'_, Constraint<'a>> {
    fn open(
        &self,
        f: &mut fmt::Formatter,
        constraint: FieldConstraint<'a>,
        rest: &mut Vec<Rest<Constraint<'a>>>,
    ) -> fmt::Result {
        match constraint {
            FieldConstraint::And(left, right) => {
                rest.extend(two(left, " and ", right, ")"));
                f.write_str("(")
            }
            FieldConstraint::Or(left, right) => {
                rest.extend(two(left, " or ", right, ")"));
                f.write_str("(")
            }
            FieldConstraint::Not(inner) => {
                rest.push(Rest::Part(inner));
                f.write_str("not ")
            }
            FieldConstraint::Cmp { op, operand } => write!(f, "value {op} {}", self.operand(operand)),
            FieldConstraint::LenCmp { op, operand } => write!(f, "length {op} {}", self.operand(operand)),
            FieldConstraint::Range { low, high, exclusive_high } => self.range(f, "value", low, high, exclusive_high),
            FieldConstraint::LenRange { low, high, exclusive_high } => {
                self.range(f, "length", low, high, exclusive_high)
            }
        }
    }

    fn operand(&self, operand: ConstraintOperand) -> String {
        match operand {
            ConstraintOperand::Int(value) => value.to_string(),
            ConstraintOperand::Float(value) => format!("{value:?}"),
            ConstraintOperand::String(text) => self.words.text(text),
            ConstraintOperand::Bool(value) => value.to_string(),
            ConstraintOperand::ConstRef(name) => self.words.name(name),
        }
    }

    fn range(
        &self,
        f: &mut fmt::Formatter,
        what: &str,
        low: ConstraintOperand,
        high: ConstraintOperand,
        exclusive_high: bool,
    ) -> fmt::Result {
        let below = if exclusive_high { "<" } else { "<=" };
        write!(f, "{} <= {what} {below} {}", self.operand(low), self.operand(high))
    }
}

impl fmt::Display for InWords<'_, Diagnostic<'_>> {
    fn fmt(&self, f: &mut fmt::Formatter) -> fmt::Result {
        let word = |name: Name| self.words.name(name);
        match self.view.told() {
            Told::Ambiguous(name) => write!(f, "the type {} is in more than one wildcard import", word(name)),
            Told::Unknown(name) => write!(f, "the type {} is not known", word(name)),
            Told::UnknownPair { namespace, name } => {
                write!(f, "the type {}.{} is not known", word(namespace), word(name))
            }
            Told::NotGeneric(name) => write!(f, "{} is no generic alias", word(name)),
            Told::UnknownHead(name) => write!(f, "the generic type {} is not known", word(name)),
            Told::NoValue(name) => write!(f, "the constant {} has no value", word(name)),
        }
    }
}

impl<T> fmt::Debug for InWords<'_, T>
where
    Self: fmt::Display,
{
    fn fmt(&self, f: &mut fmt::Formatter) -> fmt::Result {
        fmt::Display::fmt(self, f)
    }
}
