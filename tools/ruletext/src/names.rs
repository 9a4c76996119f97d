//! Declared names: their order gives the numbers.

use crate::fault::Fault;
use crate::words::{Word, Words};

/// Words of a formula, which name nothing.
const TAKEN: [&str; 7] = ["not", "and", "or", "implies", "after", "every", "some"];

/// All that a text declares.
#[derive(Clone, Debug, Default)]
pub struct Declared {
    /// The relations.
    pub relations: Names,
    /// The atoms.
    pub atoms: Names,
}

/// The names of relations or of atoms.
#[derive(Clone, Debug, Default)]
pub struct Names(Vec<String>);

impl Names {
    /// Declares every word up to the end of the statement.
    ///
    /// # Errors
    /// If there is none, or one that cannot be a name, is declared already, or gets no number.
    pub fn declare(&mut self, words: &mut Words<'_>) -> Result<(), Fault> {
        self.add(words.word("a name")?)?;
        words.try_for_each(|word| self.add(word))
    }

    fn add(&mut self, word: Word<'_>) -> Result<(), Fault> {
        let Word { text, .. } = word;
        if !is_name(text) {
            return Err(word.fault(format!("`{text}` cannot be a name")));
        }
        if self.number(text).is_some() {
            return Err(word.fault(format!("`{text}` is declared already")));
        }
        if self.0.len() == usize::from(u16::MAX) {
            return Err(word.fault("a book counts at most 65535 names"));
        }
        self.0.push(text.to_owned());
        Ok(())
    }

    /// The number of a name.
    #[must_use]
    pub fn number(&self, name: &str) -> Option<u16> {
        let at = self.0.iter().position(|known| known == name)?;
        u16::try_from(at).ok()
    }

    /// The name of a number.
    #[must_use]
    pub fn name(&self, number: u16) -> Option<&str> {
        self.0.get(usize::from(number)).map(String::as_str)
    }

    /// How many are declared, at most 65,535.
    #[must_use]
    pub fn count(&self) -> u16 {
        u16::try_from(self.0.len()).unwrap_or(u16::MAX)
    }
}

/// A letter, then letters, digits, `-` and `_`; and no word of a formula.
#[must_use]
pub fn is_name(text: &str) -> bool {
    text.starts_with(char::is_alphabetic)
        && text.chars().all(|sign| sign.is_alphanumeric() || sign == '-' || sign == '_')
        && !TAKEN.contains(&text)
}

#[cfg(test)]
mod tests {
    use super::*;
    use crate::words::statements;

    fn declared(text: &str) -> Result<Names, Fault> {
        let mut names = Names::default();
        names.declare(&mut statements(text).unwrap()[0])?;
        Ok(names)
    }

    #[test]
    fn order_gives_numbers() {
        let names = declared("boiler heat-pump\n Störung_2").unwrap();
        assert_eq!(names.number("boiler"), Some(0));
        assert_eq!(names.number("Störung_2"), Some(2));
        assert_eq!(names.number("Boiler"), None);
        assert_eq!((names.name(1), names.name(3)), (Some("heat-pump"), None));
        assert_eq!(names.count(), 3);
    }

    #[test]
    fn faults() {
        let wrong = [
            ("a b a", "line 1: `a` is declared already"),
            ("a\n 2b", "line 2: `2b` cannot be a name"),
            ("a not", "line 1: `not` cannot be a name"),
            ("a\"", "line 1: `a\"` cannot be a name"),
        ];
        for (text, fault) in wrong {
            assert_eq!(declared(text).unwrap_err().to_string(), fault);
        }
    }
}
