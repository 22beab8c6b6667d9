//! The proved library beside the model, where it is linked (the features `proved` and `reading`).

use crate::judge::Run;
#[cfg(any(test, feature = "reading"))]
use model::Reply;
use std::sync::atomic::{AtomicU64, Ordering};

/// Whether the library that lowers is linked.
pub const LOWERS: bool = cfg!(feature = "proved");
/// Whether the library that only reads is linked.
pub const READS: bool = cfg!(feature = "reading");

/// How many lowerings of the library were as the model's so far.
static LOWERED: AtomicU64 = AtomicU64::new(0);

pub fn lowerings() -> u64 {
    LOWERED.load(Ordering::Relaxed)
}

/// A run of the model, once the library has given the same reply and left the same bytes in slices lent as its were.
/// What is held to the Rust from here on are the bytes that the library wrote.
#[cfg(feature = "proved")]
pub fn lowered(book: &[u8], model: Run) -> Result<Run, String> {
    use crate::judge::{lent_diagnostics, lent_results};
    #[cfg(feature = "reading")]
    read(proved::refusal(book), model.reply)?;
    let mut results = lent_results(model.results.len());
    let mut diagnostics = lent_diagnostics(model.diagnostics.len());
    let reply = proved::lower(book, &mut results, &mut diagnostics);
    same(reply, (&results, &diagnostics), &model)?;
    LOWERED.fetch_add(1, Ordering::Relaxed);
    Ok(Run { results, diagnostics, ..model })
}

#[cfg(not(feature = "proved"))]
pub fn lowered(_book: &[u8], model: Run) -> Result<Run, String> {
    Ok(model)
}

/// The library's words and slices are the model's.
#[cfg(any(test, feature = "proved"))]
fn same(reply: [u64; 4], slices: (&[u8], &[u8]), model: &Run) -> Result<(), String> {
    if reply != model.reply.words() {
        return Err(format!("the proved library replies {reply:?}, but the model says {:?}", model.reply));
    }
    for (what, ours, expected) in [("results", slices.0, &model.results), ("diagnostics", slices.1, &model.diagnostics)]
    {
        if ours != expected {
            let at = ours.iter().zip(expected).position(|(a, b)| a != b).unwrap_or(ours.len());
            return Err(format!("the proved library leaves another byte {at} of {what} than the model"));
        }
    }
    Ok(())
}

/// A book that is refused by 1 to 8 is refused by that number at that place, and every other one is read to its end.
#[cfg(any(test, feature = "reading"))]
fn read(refusal: Option<(u8, u32)>, reply: Reply) -> Result<(), String> {
    let expected = match reply {
        Reply::Refused { number: number @ 1..=8, place } => Some((number, place)),
        _ => None,
    };
    if refusal == expected {
        return Ok(());
    }
    Err(format!("the proved library reads {refusal:?}, but the model says {reply:?}"))
}

#[cfg(test)]
mod tests {
    use super::{read, same};
    use crate::judge::Run;
    use model::{Reply, Trace};

    const ACCEPTED: Reply = Reply::Accepted { results: 4, diagnostics: 0, constants: 2 };

    fn refused(number: u8, place: u32) -> Reply {
        Reply::Refused { number, place }
    }

    #[test]
    fn another_number_place_or_answer_is_read() {
        assert!(read(Some((5, 3)), refused(5, 3)).is_ok());
        assert!(read(Some((4, 3)), refused(5, 3)).is_err());
        assert!(read(Some((5, 2)), refused(5, 3)).is_err());
        assert!(read(None, refused(5, 3)).is_err());
        assert!(read(None, refused(9, 3)).is_ok());
        assert!(read(None, ACCEPTED).is_ok());
        assert!(read(Some((1, 0)), ACCEPTED).is_err());
    }

    #[test]
    fn replies_are_four_words() {
        assert_eq!(ACCEPTED.words(), [0, 4, 0, 2]);
        assert_eq!(refused(10, 7).words(), [10, 7, 0, 0]);
    }

    #[test]
    fn another_word_or_byte_disagrees() {
        let run = Run { reply: ACCEPTED, trace: Trace::default(), results: vec![1, 2, 3], diagnostics: vec![4] };
        let with = |reply, results: &[u8], diagnostics: &[u8]| same(reply, (results, diagnostics), &run);
        assert!(with([0, 4, 0, 2], &[1, 2, 3], &[4]).is_ok());
        for word in 0..4 {
            let mut other = [0, 4, 0, 2];
            other[word] += 1;
            assert!(with(other, &[1, 2, 3], &[4]).is_err());
        }
        let why = with([0, 4, 0, 2], &[1, 2, 4], &[4]).unwrap_err();
        assert_eq!(why, "the proved library leaves another byte 2 of results than the model");
        assert!(with([0, 4, 0, 2], &[1, 2, 3], &[5]).is_err());
    }
}
