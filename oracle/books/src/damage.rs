//! Damaged books: each sentence about what turns a book back is broken in turn.

mod blocks;
mod depth;
mod lowering;
mod noise;
mod order;
mod records;
mod scene;

use crate::layout::{self, MOST_RECORDS, NONE};
use crate::random::lengths;
use crate::rng::Rng;
use crate::shape::{field, shape, Field};
use lowering::User;
use order::Why;
use scene::{spoil, Scene};

/// Bytes and lent lengths, with the cause and place that must come back, where they are known.
pub struct Damaged {
    pub bytes: Vec<u8>,
    pub results: usize,
    pub diagnostics: usize,
    pub expected: Option<(u8, u32)>,
    pub what: &'static str,
}

/// A damaged book before its lent lengths are settled.
pub struct Case {
    bytes: Vec<u8>,
    /// None where any lengths will do.
    lengths: Option<(usize, usize)>,
    expected: Option<(u8, u32)>,
}

impl Case {
    fn new(bytes: Vec<u8>, expected: Option<(u8, u32)>) -> Case {
        Case { bytes, lengths: None, expected }
    }
}

/// How a damage is made.
pub enum Break {
    /// The target of a scene falls under that cause.
    Record(u8, fn(&mut Rng) -> Scene),
    /// Anything else.
    Whole(fn(&mut Rng) -> Case),
}

use Break::{Record, Whole};

/// All damages by name.
pub const BREAKS: [(&str, Break); 88] = [
    ("length 0", Whole(blocks::length_zero)),
    ("length above 32,768", Whole(blocks::too_long)),
    ("length no multiple of 512", Whole(blocks::ragged)),
    ("wrong check", Whole(blocks::wrong_check)),
    ("check FFFF for 0000", Whole(blocks::check_all_ones)),
    ("check 0000 for FFFF", Whole(blocks::check_all_zeros)),
    ("one bit flipped", Whole(blocks::bit_flipped)),
    ("record changed, check not", Whole(blocks::record_changed)),
    ("random bytes", Whole(blocks::any_bytes)),
    ("wrong check and block rule", Whole(blocks::check_and_rule)),
    ("wrong block number", Whole(blocks::block_number)),
    ("blocks swapped", Whole(blocks::blocks_swapped)),
    ("record count 0", Whole(blocks::no_records)),
    ("record count below 21 before the last block", Whole(blocks::too_few_records)),
    ("record count above 21", Whole(blocks::too_many_records)),
    ("record not counted", Whole(blocks::record_not_counted)),
    ("byte 3 of block 0", Whole(blocks::first_byte_three)),
    ("byte 3 of a later block", Whole(blocks::later_byte_three)),
    ("bytes 508 and 509", Whole(blocks::bytes_before_the_check)),
    ("unused place not zero", Whole(blocks::unused_place)),
    ("block of zeros with its check", Whole(blocks::empty_block)),
    ("block rule, wrong check in a later block", Whole(blocks::rule_before_check)),
    ("records broken before a block", Whole(blocks::records_before_block)),
    ("unknown kind", Record(4, records::unknown_kind)),
    ("zero record counted", Record(4, records::zero_record)),
    ("sub past the last", Record(4, records::sub_past_the_last)),
    ("sub of a kind without subs", Record(4, records::sub_where_none_is)),
    ("unused a", Record(4, records::unused_a)),
    ("unused b", Record(4, records::unused_b)),
    ("unused c", Record(4, records::unused_c)),
    ("unused v", Record(4, records::unused_v)),
    ("name above 4,095", Record(4, records::name_too_high)),
    ("none for a name", Record(4, records::none_for_a_name)),
    ("none for a string", Record(4, records::none_for_a_string)),
    ("bits above 255", Record(4, records::too_many_bits)),
    ("Bool above 1", Record(4, records::bool_above_one)),
    ("ordinal above 2^32 - 1", Record(4, records::ordinal_too_high)),
    ("length flag above 1", Record(4, records::flag_above_one)),
    ("fields 4 and children 5", Record(4, records::field_and_child)),
    ("fields 4 and follow rule 6", Record(4, order::field_and_follow)),
    ("fields 4 and name 7", Record(4, order::field_and_name)),
    ("fields 4 and depth 8", Record(4, depth::field_and_depth)),
    ("child is itself", Record(5, records::child_itself)),
    ("child later", Record(5, records::child_later)),
    ("child past the end", Record(5, records::child_past_the_end)),
    ("child none", Record(5, records::child_none)),
    ("child of a wrong group", Record(5, records::child_of_a_wrong_group)),
    ("child of another", Record(5, records::child_of_another)),
    ("child twice in one record", Record(5, records::child_twice)),
    ("children 5 and follow rule 6", Record(5, order::child_and_follow)),
    ("children 5 and name 7", Record(5, order::child_and_name)),
    ("children 5 and depth 8", Record(5, depth::child_and_depth)),
    ("30 not after 23 or 30", Record(6, |rng| order::misplaced(rng, Why::Parameter))),
    ("31 or 32 without a body", Record(6, |rng| order::misplaced(rng, Why::NoBody))),
    ("31 or 32 before a variant", Record(6, |rng| order::misplaced(rng, Why::NoVariant))),
    ("31 or 32 after 32 sub 1", Record(6, |rng| order::misplaced(rng, Why::AfterOwnTombstone))),
    ("32 sub 1 or 33 outside a union", Record(6, |rng| order::misplaced(rng, Why::NoUnion))),
    ("34 in a wrong place", Record(6, |rng| order::misplaced(rng, Why::Annotation))),
    ("35 in a wrong place", Record(6, |rng| order::misplaced(rng, Why::Argument))),
    ("36 in a wrong place", Record(6, |rng| order::misplaced(rng, Why::TombstoneArgument))),
    ("20 to 23 declared again", Record(7, order::type_again)),
    ("24 declared again", Record(7, order::constant_again)),
    ("25 declared again", Record(7, order::ambiguous_again)),
    ("type of depth 65", Record(8, depth::deep_type)),
    ("expression of depth 65", Record(8, depth::deep_expression)),
    ("constraint of depth 65", Record(8, depth::deep_constraint)),
    ("65 steps in an alias", Whole(|rng| lowering::steps(rng, User::Alias))),
    ("65 steps in a constant", Whole(|rng| lowering::steps(rng, User::Constant))),
    ("65 steps in a newtype", Whole(|rng| lowering::steps(rng, User::Newtype))),
    ("65 steps in a field", Whole(|rng| lowering::steps(rng, User::Field))),
    ("65 steps in a tombstone", Whole(|rng| lowering::steps(rng, User::Tombstone))),
    ("ring of generics", Whole(lowering::ring)),
    ("9 before 10", Whole(lowering::deep_before_full)),
    ("10 before 9", Whole(lowering::full_before_deep)),
    ("results short: newtypes", Whole(lowering::newtypes)),
    ("results short: constants", Whole(lowering::constants)),
    ("results short: items", Whole(lowering::items)),
    ("results short: aliases first", Whole(lowering::aliases_first)),
    ("results short: copies", Whole(lowering::copies)),
    ("diagnostics short", Whole(lowering::diagnostics)),
    ("diagnostics above 256", Whole(lowering::diagnostics_full)),
    ("both short", Whole(lowering::both)),
    ("bit flipped, check repaired", Whole(noise::flipped_and_sealed)),
    ("bit of a record flipped, check repaired", Whole(noise::record_flipped)),
    ("random records", Whole(noise::random_records)),
    ("records wrecked", Whole(noise::wrecked)),
    ("records rearranged", Whole(noise::rearranged)),
    ("fields nudged", Whole(noise::nudged)),
];

/// A damaged book. What is expected is the first in the order of causes, also where others stand behind it.
pub fn damaged(rng: &mut Rng) -> Damaged {
    let (what, how) = rng.pick(&BREAKS);
    let case = match how {
        Whole(make) => make(rng),
        Record(cause, make) => recorded(rng, *cause, *make),
    };
    let (results, diagnostics) = case.lengths.unwrap_or_else(|| lengths(rng));
    Damaged { bytes: case.bytes, results, diagnostics, expected: case.expected, what }
}

/// The case of a broken record, in a third of all cases with broken ones behind it, in an eighth late in a book.
fn recorded(rng: &mut Rng, cause: u8, make: fn(&mut Rng) -> Scene) -> Case {
    let Scene { mut book, mut place } = make(rng);
    if rng.chance(3) {
        spoil(rng, &mut book.records, place);
    }
    if rng.chance(8) && book.records.len() < MOST_RECORDS {
        let more = rng.between(1, MOST_RECORDS - book.records.len());
        push_back(&mut book.records, more);
        place += more;
    }
    Case::new(book.bytes(), Some((cause, place as u32)))
}

/// Puts so many types that nothing uses before all records; children move with them.
fn push_back(records: &mut Vec<layout::Record>, more: usize) {
    for r in records.iter_mut() {
        let fields = shape(r.kind, r.sub).map_or([Field::Unused; 3], |s| s.fields);
        for (at, what) in fields.into_iter().enumerate() {
            let child = field(r, at);
            if matches!(what, Field::Child(_) | Field::ChildOrNone(_)) && *child != NONE {
                *child = child.saturating_add(more as u16).min(NONE - 1);
            }
        }
    }
    let leaf = layout::Record { kind: 1, ..layout::Record::default() };
    records.splice(0..0, std::iter::repeat_n(leaf, more));
}
