//! The inputs of a fuzzer: made of the list of answers, and judged as the generated books are.

use crate::judge::judge;
use crate::run::{share, Disagreement};
use crate::{answers, shrink};
use books::Input;
use model::Reply;
use std::fs;
use std::path::{Path, PathBuf};

/// Writes an input for each answer of the list in that folder.
pub fn make(list: &str, folder: &str) -> Result<String, String> {
    let answers = answers::read(list)?;
    for a in &answers {
        let path = Path::new(folder).join(&a.name);
        let input = Input::of(&a.book, a.lent).write();
        fs::write(&path, input).map_err(|e| format!("{}: {e}", path.display()))?;
    }
    Ok(format!("{} inputs", answers.len()))
}

/// What came of some inputs.
#[derive(Default)]
struct Judged {
    inputs: u64,
    /// by the number of the cause, 0 for accepted
    causes: [u64; 11],
    /// accepted with full slices, and so held to the Rust
    rust: u64,
    disagreements: Vec<Disagreement>,
}

impl Judged {
    fn merge(&mut self, other: Judged) {
        self.inputs += other.inputs;
        self.causes.iter_mut().zip(other.causes).for_each(|(all, n)| *all += n);
        self.rust += other.rust;
        self.disagreements.extend(other.disagreements);
    }

    fn add(&mut self, path: &Path) {
        let input = Input::read(&fs::read(path).expect("an input that can be read"));
        let (bytes, lent) = (input.book(), input.lent());
        self.inputs += 1;
        match judge(&bytes, lent.0, lent.1, None) {
            Ok(outcome) => {
                self.rust += outcome.rust.is_some() as u64;
                self.causes[match outcome.reply {
                    Reply::Accepted { .. } => 0,
                    Reply::Refused { number, .. } => number as usize,
                }] += 1;
            }
            Err(why) => {
                let what = path.display().to_string();
                self.disagreements.push(Disagreement { bytes, lent, expected: None, what, why });
            }
        }
    }
}

/// Judges every input of a folder.
pub fn judge_all(folder: &str) -> Result<String, String> {
    let files = fs::read_dir(folder).map_err(|e| format!("{folder}: {e}"))?;
    let paths: Vec<PathBuf> = files.flatten().map(|f| f.path()).collect();
    let mut all = Judged::default();
    share(0..paths.len() as u64, |n, judged: &mut Judged| judged.add(&paths[n as usize]))
        .into_iter()
        .for_each(|half| all.merge(half));
    let Judged { inputs, causes, rust, disagreements } = all;
    let [accepted, refused @ ..] = causes;
    let text = format!("{inputs} inputs: {accepted} accepted, by cause {refused:?}; {rust} held to the Rust");
    if disagreements.is_empty() {
        return Ok(format!("{text}\nno disagreement"));
    }
    let count = disagreements.len();
    disagreements.into_iter().min_by_key(|d| d.bytes.len()).into_iter().for_each(|d| shrink::print(shrink::shrink(d)));
    Err(format!("{text}\n{count} disagreements, the smallest above"))
}
