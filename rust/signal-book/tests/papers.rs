//! What the pages show is what is printed: the commands of README.md with the tool, the text it quotes, and the words that
//! the C header has for causes.

mod common;

use common::{file, path};
use signal_book::Cause;
use std::fs;
use std::path::{Path, PathBuf};
use std::process::Command;

fn text(name: &str) -> String {
    String::from_utf8(file(name)).unwrap()
}

/// The blocks of a page that are marked by a word.
fn blocks(paper: &str, mark: &str) -> Vec<String> {
    let begin = format!("```{mark}\n");
    paper.split(&begin).skip(1).map(|rest| rest.split("```").next().unwrap().to_string()).collect()
}

/// A folder with `books`, to run the commands of README.md in.
fn folder() -> PathBuf {
    let folder = Path::new(env!("CARGO_TARGET_TMPDIR")).join("readme");
    let _ = fs::remove_dir_all(&folder);
    fs::create_dir_all(&folder).unwrap();
    std::os::unix::fs::symlink(path("books").canonicalize().unwrap(), folder.join("books")).unwrap();
    folder
}

/// What a command with the tool prints.
fn printed(folder: &Path, command: &str) -> String {
    let words: Vec<&str> = command.split_whitespace().skip(1).collect();
    let output = Command::new(env!("CARGO_BIN_EXE_signal-book")).args(words).current_dir(folder).output().unwrap();
    assert!(output.stderr.is_empty(), "{command}: {}", String::from_utf8_lossy(&output.stderr));
    String::from_utf8(output.stdout).unwrap()
}

#[test]
fn commands_print_what_readme_shows() {
    let (folder, readme) = (folder(), text("README.md"));
    let mut run = 0;
    for block in blocks(&readme, "console").iter().filter(|block| block.starts_with("$ signal-book")) {
        let commands = block.lines().filter_map(|line| line.strip_prefix("$ "));
        let said: String = commands.map(|command| format!("$ {command}\n{}", printed(&folder, command))).collect();
        assert_eq!(said, *block);
        run += 1;
    }
    assert_eq!(run, 2);
}

#[test]
fn readme_quotes_the_text_of_the_signals() {
    let quoted = blocks(&text("README.md"), "text").into_iter().find(|block| block.contains("message Rope")).unwrap();
    assert!(text("books/signals.txt").ends_with(&quoted), "{quoted}");
}

/// README.md has the example, and what the example prints.
#[test]
fn readme_has_the_example_in_rust() {
    let (readme, example) = (text("README.md"), text("rust/signal-book/examples/rope.rs"));
    assert!(example.ends_with(&format!("\n\n{}", blocks(&readme, "rust")[0])));
    let mut cargo = Command::new(env!("CARGO"));
    cargo.args(["run", "--quiet", "--offline", "--example", "rope"]).current_dir(path("rust/signal-book"));
    let said = String::from_utf8(cargo.output().unwrap().stdout).unwrap();
    let lines: Vec<&str> = said.lines().collect();
    assert!(readme.contains(&format!("prints `{}`", lines.join("` and `"))), "{said}");
}

#[test]
fn the_text_form_paper_shows_k1() {
    let shown = printed(&path("."), "signal-book dump books/k1.book");
    assert!(text("docs/TEXT.md").contains(&format!("```\n{shown}```")), "{shown}");
}

/// A cause has the same name and the same words in C.
#[test]
fn causes_are_the_same_in_c() {
    let header = text("include/signal_book.h");
    for cause in Cause::ALL {
        let words = format!(": return \"{}\";", cause.words());
        let line = header.lines().find(|line| line.contains(&words)).unwrap_or_else(|| panic!("{words}"));
        let name = line.trim().strip_prefix("case ").unwrap().split(':').next().unwrap();
        assert!(header.contains(&format!("{name} = {}", cause.number())), "{name}");
        let rust = name.strip_prefix("SIGNAL_BOOK_CAUSE_").unwrap().replace('_', "").to_lowercase();
        assert_eq!(rust, format!("{cause:?}").to_lowercase());
    }
}
