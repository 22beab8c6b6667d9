//! Tries wrong models: for each entry of `mutants.txt` a copy of the workspace gets its edits, is built and run, and
//! something must disagree. Run in the folder `oracle` by the script `mutants`.

use std::path::{Path, PathBuf};
use std::process::{Command, Stdio};
use std::sync::atomic::{AtomicUsize, Ordering};
use std::sync::Mutex;
use std::{env, fs};

struct Edit {
    file: String,
    old: String,
    new: String,
}

#[derive(Default)]
struct Mutant {
    name: String,
    edits: Vec<Edit>,
    /// Why nothing can tell it from the model, where that is so.
    same: Option<String>,
}

/// The entries: paragraphs of a name and edits; a line that starts with `=` says why a mutant is no other model.
fn mutants(text: &str) -> Vec<Mutant> {
    text.split("\n\n").filter_map(mutant).collect()
}

/// The entry of a paragraph, if it is more than a remark.
fn mutant(paragraph: &str) -> Option<Mutant> {
    let mut lines = paragraph.lines().filter(|l| !l.starts_with('#') && !l.is_empty());
    let mut m = Mutant { name: lines.next()?.to_string(), ..Mutant::default() };
    for line in lines {
        match (line.split_at(line.len().min(2)), m.edits.last_mut()) {
            (("= ", why), _) => m.same = Some(why.to_string()),
            (("- ", old), Some(e)) => join(&mut e.old, old),
            (("+ ", new), Some(e)) => join(&mut e.new, new),
            _ => m.edits.push(Edit { file: line.to_string(), old: String::new(), new: String::new() }),
        }
    }
    Some(m)
}

/// Adds a line to a text.
fn join(text: &mut String, line: &str) {
    if !text.is_empty() {
        text.push('\n');
    }
    text.push_str(line);
}

/// The text of a file of the model with the edits that it gets, each at the one place where its old text stands.
fn edited(file: &str, text: &str, m: &Mutant) -> Result<String, String> {
    let mut places = Vec::new();
    for e in m.edits.iter().filter(|e| e.file == file) {
        let found: Vec<usize> = text.match_indices(&e.old).map(|x| x.0).collect();
        match found[..] {
            [at] => places.push((at, e)),
            _ => return Err(format!("{} places have the text: {}", found.len(), e.old)),
        }
    }
    places.sort_by_key(|p| std::cmp::Reverse(p.0));
    let mut out = text.to_string();
    places.iter().for_each(|(at, e)| out.replace_range(*at..at + e.old.len(), &e.new));
    Ok(out)
}

fn copy(from: &Path, to: &Path) -> std::io::Result<()> {
    fs::create_dir_all(to)?;
    for entry in fs::read_dir(from)? {
        let entry = entry?;
        let name = entry.file_name();
        match entry.file_type()?.is_dir() {
            true if name == "target" || name == "source" => {}
            true => copy(&entry.path(), &to.join(name))?,
            false => fs::write(to.join(name), fs::read(entry.path())?)?,
        }
    }
    Ok(())
}

/// Whether a command of the copy ends well (0) or says that it does not (1); anything else, as an end by a signal or
/// after two minutes, is an error.
fn ends_well(folder: &Path, program: &str, words: &[&str]) -> Result<bool, String> {
    let mut command = Command::new("timeout");
    command.arg("120").arg(program).args(words).current_dir(folder);
    command.env("CARGO_INCREMENTAL", "1").env_remove("CARGO_TARGET_DIR");
    let status = command.stdout(Stdio::null()).stderr(Stdio::null()).status().map_err(|e| e.to_string())?;
    match status.code() {
        Some(0) => Ok(true),
        Some(1) => Ok(false),
        _ => Err(format!("{program} ends with {status}")),
    }
}

const BUILD: [&str; 8] = ["build", "--quiet", "--offline", "--release", "--package", "compare", "--bin", "compare"];
const RUN: [&str; 6] = ["--books", "4000", "--damaged", "20000", "--seed", "5"];

/// Tries one mutant in a copy: whether the runs agree, and whether the list of answers holds.
fn attempt(m: &Mutant, here: &Path, folder: &Path) -> Result<(bool, bool), String> {
    for entry in fs::read_dir(here.join("model/src")).map_err(|e| e.to_string())?.flatten() {
        let file = entry.file_name().into_string().unwrap_or_default();
        if let Ok(text) = fs::read_to_string(entry.path()) {
            fs::write(folder.join("model/src").join(&file), edited(&file, &text, m)?).map_err(|e| e.to_string())?;
        }
    }
    ends_well(folder, "cargo", &BUILD).map_err(|_| "it does not compile".to_string())?;
    let list = here.join("../crates/replay").display().to_string();
    let agree = ends_well(folder, "target/release/compare", &RUN)?;
    let holds = ends_well(folder, "target/release/compare", &["answers", "replay", &list])?;
    Ok((agree, holds))
}

/// The source for the copies, which do not stand where the workspace does.
fn source(here: &Path) -> PathBuf {
    let given = env::var_os("VEXIL_SRC").map(PathBuf::from);
    let places = [here.join("../docs/src"), here.join("../../shared/docs/src")];
    given.or(places.into_iter().find(|p| p.is_dir())).unwrap_or_default()
}

/// What there is to say of a mutant, and whether it is as it should be.
fn verdict(m: &Mutant, tried: &Result<(bool, bool), String>) -> (String, bool) {
    match (tried, &m.same) {
        (Err(why), _) => (why.clone(), false),
        (Ok((true, true)), Some(why)) => (format!("no other model: {why}"), true),
        (Ok((agree, holds)), same) => {
            let by = |found: bool| if found { "found" } else { "not found" };
            (format!("{} by the runs, {} by the list", by(!agree), by(!holds)), !agree && same.is_none())
        }
    }
}

/// All mutants, and what came of those tried so far.
struct Trial {
    here: PathBuf,
    all: Vec<Mutant>,
    next: AtomicUsize,
    told: AtomicUsize,
    wrong: Mutex<Vec<String>>,
}

impl Trial {
    /// Tries one mutant after the other in the copy of that number, until none is left.
    fn work(&self, n: usize) {
        let folder = self.here.join(format!("target/mutants/{n}"));
        copy(&self.here, &folder).expect("a copy of the workspace");
        while let Some(m) = self.all.get(self.next.fetch_add(1, Ordering::Relaxed)) {
            let tried = attempt(m, &self.here, &folder);
            self.told.fetch_add(matches!(tried, Ok((_, false))) as usize, Ordering::Relaxed);
            let (line, fine) = verdict(m, &tried);
            println!("{:42} {line}", m.name);
            if !fine {
                self.wrong.lock().expect("a list").push(m.name.clone());
            }
        }
    }

    /// Prints the sums, and says whether all is as it should be.
    fn sums(self) -> bool {
        let same = self.all.iter().filter(|m| m.same.is_some()).count() - 1;
        let wrong = self.wrong.into_inner().expect("a list");
        println!(
            "{} mutants, {same} of them no other model, {} found by the list; not as they should be: {}",
            self.all.len() - 1,
            self.told.into_inner(),
            wrong.len()
        );
        wrong.iter().for_each(|name| println!("  {name}"));
        wrong.is_empty()
    }
}

/// Tries the mutants of those names, or all. First a model without an edit has to agree, so that what is found is the
/// edit.
pub fn run(wanted: &[String]) -> bool {
    let here = env::current_dir().expect("a folder");
    env::set_var("VEXIL_SRC", source(&here));
    let mut all = mutants(&fs::read_to_string("mutants.txt").expect("mutants.txt"));
    all.retain(|m| wanted.is_empty() || wanted.contains(&m.name));
    let same = Some("it has no edit".to_string());
    all.insert(0, Mutant { name: "the model as it is".to_string(), edits: Vec::new(), same });
    let trial = Trial { here, all, next: AtomicUsize::new(0), told: AtomicUsize::new(0), wrong: Mutex::default() };
    std::thread::scope(|s| {
        for n in 0..2 {
            let trial = &trial;
            s.spawn(move || trial.work(n));
        }
    });
    trial.sums()
}
