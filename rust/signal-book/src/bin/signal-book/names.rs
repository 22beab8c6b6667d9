//! Words for the names of a book, from the lines `name NUMBER WORD` of a text.

use crate::rows;
use signal_book::{Name, Words};
use std::collections::BTreeMap;

#[derive(Default)]
pub struct Names {
    words: BTreeMap<u16, String>,
}

impl Names {
    /// Takes the words `NUMBER WORD` behind `name`.
    pub fn add(&mut self, parts: &[&str]) -> Result<(), String> {
        let [number, word] = parts else { return Err("a name is `name NUMBER WORD`".into()) };
        let number = number.parse().ok().and_then(Name::new);
        let number = number.ok_or("the number of a name is 0 to 4095")?.number();
        if !is_word(word) {
            return Err(format!(
                "`{word}` is no word for a name: letters, digits and _, and none of this form's own words"
            ));
        }
        if self.words.contains_key(&number) || self.number(word).is_some() {
            return Err(format!("the name {number} or the word `{word}` is given twice"));
        }
        self.words.insert(number, word.to_string());
        Ok(())
    }

    /// Those of a text, whatever its other lines are.
    pub fn of_text(text: &str) -> Result<Names, String> {
        let mut names = Names::default();
        for (number, line) in text.lines().enumerate() {
            let line = line.split('#').next().unwrap_or("");
            let parts: Vec<&str> = line.split_whitespace().collect();
            if parts.first() == Some(&"name") {
                names.add(&parts[1..]).map_err(|why| format!("line {}: {why}", number + 1))?;
            }
        }
        Ok(names)
    }

    /// The number that a word stands for: one that is given, or N17.
    pub fn number(&self, word: &str) -> Option<u16> {
        let given = self.words.iter().find(|(_, known)| *known == word).map(|(number, _)| *number);
        given.or_else(|| plain(word, 'N'))
    }

    /// The word of a number: the one that is given, or N17.
    pub fn word(&self, number: u16) -> String {
        self.words.get(&number).cloned().unwrap_or_else(|| format!("N{number}"))
    }

    /// The lines that give the words of these numbers.
    pub fn lines(&self, used: impl Fn(u16) -> bool) -> String {
        let used = self.words.iter().filter(|(number, _)| used(**number));
        used.map(|(number, word)| format!("name {number} {word}\n")).collect()
    }
}

impl Words for Names {
    fn name(&self, name: Name) -> String {
        self.word(name.number())
    }
}

/// The number in a word like N17 or S5.
pub fn plain(word: &str, letter: char) -> Option<u16> {
    let digits = word.strip_prefix(letter)?;
    (digits == "0" || !digits.starts_with(['0', '+'])).then(|| digits.parse().ok())?
}

/// Whether a word can stand for a name wherever a name can stand.
fn is_word(word: &str) -> bool {
    let letters = word.chars().all(|c| c.is_alphanumeric() || c == '_') && !word.starts_with(|c: char| c.is_numeric());
    let taken = ["true", "false", "none", "value"].contains(&word) || plain(word, 'N').is_some();
    let leaf = rows::leaf(1, word).or(rows::leaf(3, word)).is_some();
    !word.is_empty() && letters && !taken && !leaf
}
