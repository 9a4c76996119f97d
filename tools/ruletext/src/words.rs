//! A text as statements, and a statement as words that know their line.
//!
//! `#` starts a comment, blank lines say nothing, an indented line continues the statement before
//! it. The signs `(`, `)` and `:` are words of their own.

use crate::fault::Fault;
use std::str::FromStr;
use std::vec::IntoIter;

const SIGNS: [char; 3] = ['(', ')', ':'];

/// A word and the line it stands on.
#[derive(Clone, Copy, Debug, PartialEq, Eq)]
pub struct Word<'a> {
    /// The line, from 1.
    pub line: usize,
    /// The word itself.
    pub text: &'a str,
}

impl Word<'_> {
    /// A fault at this word.
    pub fn fault(&self, what: impl Into<String>) -> Fault {
        Fault::new(self.line, what)
    }

    /// The word as a number in digits.
    ///
    /// # Errors
    /// If it is not a number, or one that the type does not hold.
    pub fn number<N: FromStr>(&self) -> Result<N, Fault> {
        let Word { text, .. } = self;
        if text.is_empty() || !text.bytes().all(|byte| byte.is_ascii_digit()) {
            return Err(self.fault(format!("`{text}` is not a number")));
        }
        text.parse().map_err(|_| self.fault(format!("{text} is too large here")))
    }
}

/// The words of a statement, taken one by one.
#[derive(Clone, Debug)]
pub struct Words<'a> {
    rest: IntoIter<Word<'a>>,
    /// The line of the word taken last.
    pub line: usize,
}

impl<'a> Words<'a> {
    /// The words of a line that stands alone, without comments and signs.
    #[must_use]
    pub fn of_line(line: usize, text: &'a str) -> Words<'a> {
        let words: Vec<_> = text.split_whitespace().map(|text| Word { line, text }).collect();
        Words { rest: words.into_iter(), line }
    }

    /// The next word, which has to be there.
    ///
    /// # Errors
    /// If the statement ends here, where `wanted` should stand.
    pub fn word(&mut self, wanted: &str) -> Result<Word<'a>, Fault> {
        self.next().ok_or_else(|| Fault::new(self.line, format!("{wanted} is missing at the end")))
    }

    /// The next word, which has to be this one.
    ///
    /// # Errors
    /// If another word stands here, or none.
    pub fn expect(&mut self, wanted: &str) -> Result<(), Fault> {
        let word = self.word(&format!("`{wanted}`"))?;
        if word.text == wanted {
            return Ok(());
        }
        Err(word.fault(format!("`{}` stands where `{wanted}` should", word.text)))
    }

    /// The next word as a number.
    ///
    /// # Errors
    /// If there is none, or the type does not hold it.
    pub fn number<N: FromStr>(&mut self) -> Result<N, Fault> {
        self.word("a number")?.number()
    }

    /// Says that the statement ends here.
    ///
    /// # Errors
    /// If there is one more word.
    pub fn end(&mut self) -> Result<(), Fault> {
        match self.next() {
            Some(word) => Err(word.fault(format!("`{}` is one word too many", word.text))),
            None => Ok(()),
        }
    }
}

impl<'a> Iterator for Words<'a> {
    type Item = Word<'a>;

    fn next(&mut self) -> Option<Word<'a>> {
        let word = self.rest.next()?;
        self.line = word.line;
        Some(word)
    }
}

/// Bytes as text; a mark of byte order before it is skipped.
///
/// # Errors
/// If they are not UTF-8.
pub fn utf8(bytes: &[u8]) -> Result<&str, Fault> {
    let text = std::str::from_utf8(bytes).map_err(|error| {
        let line = bytes[..error.valid_up_to()].split(|&byte| byte == b'\n').count();
        Fault::new(line, "this is not UTF-8 text")
    })?;
    Ok(text.strip_prefix('\u{feff}').unwrap_or(text))
}

/// The statements of a text, each with at least one word.
///
/// # Errors
/// If the first words of the text are indented.
pub fn statements(text: &str) -> Result<Vec<Words<'_>>, Fault> {
    let mut statements: Vec<Vec<Word<'_>>> = Vec::new();
    for (line, whole) in (1..).zip(text.lines()) {
        let plain = whole.split('#').next().unwrap_or_default();
        let words = plain.split_whitespace().flat_map(pieces).map(|text| Word { line, text });
        let mut words = words.peekable();
        if words.peek().is_none() {
            continue;
        }
        if !plain.starts_with(char::is_whitespace) {
            statements.push(words.collect());
        } else if let Some(before) = statements.last_mut() {
            before.extend(words);
        } else {
            return Err(Fault::new(line, "an indented line has nothing before it to continue"));
        }
    }
    let statements = statements.into_iter();
    Ok(statements.map(|words| Words { line: words[0].line, rest: words.into_iter() }).collect())
}

/// A word between blanks, parted at its signs.
fn pieces(mut chunk: &str) -> Vec<&str> {
    let mut pieces = Vec::new();
    while let Some(at) = chunk.find(SIGNS) {
        pieces.extend([&chunk[..at], &chunk[at..=at]]);
        chunk = &chunk[at + 1..];
    }
    pieces.push(chunk);
    pieces.retain(|piece| !piece.is_empty());
    pieces
}

#[cfg(test)]
mod tests {
    use super::*;

    fn all(text: &str) -> Vec<Vec<(usize, &str)>> {
        let statements = statements(text).unwrap();
        statements.into_iter().map(|words| words.map(|at| (at.line, at.text)).collect()).collect()
    }

    fn first(text: &str) -> Words<'_> {
        statements(text).unwrap().remove(0)
    }

    #[test]
    fn comments_blanks_and_continuations() {
        let found = all("# head\nrule a # first\n\n  # between\n\tand b\r\nrule c");
        let wanted =
            [vec![(2, "rule"), (2, "a"), (5, "and"), (5, "b")], vec![(6, "rule"), (6, "c")]];
        assert_eq!(found, wanted);
    }

    #[test]
    fn signs_are_words() {
        let found = all("not(a)\nx:y :");
        let wanted = [
            vec![(1, "not"), (1, "("), (1, "a"), (1, ")")],
            vec![(2, "x"), (2, ":"), (2, "y"), (2, ":")],
        ];
        assert_eq!(found, wanted);
    }

    #[test]
    fn nothing_to_continue() {
        let fault = statements("\n  rule a").unwrap_err();
        assert_eq!(fault.to_string(), "line 2: an indented line has nothing before it to continue");
    }

    #[test]
    fn numbers() {
        assert_eq!(first("65535").number::<u16>(), Ok(65535));
        let fault = first("65536").number::<u16>().unwrap_err();
        assert_eq!(fault.to_string(), "line 1: 65536 is too large here");
        for wrong in ["-1", "+1", "x", "1x", "1.0"] {
            let fault = first(wrong).number::<u16>().unwrap_err();
            assert_eq!(fault.what, format!("`{wrong}` is not a number"));
        }
    }

    #[test]
    fn missing_and_extra_words() {
        let mut words = first("a\n b");
        assert_eq!(words.expect("a"), Ok(()));
        assert_eq!(
            words.clone().end().unwrap_err().to_string(),
            "line 2: `b` is one word too many"
        );
        let fault = words.expect("c").unwrap_err();
        assert_eq!(fault.to_string(), "line 2: `b` stands where `c` should");
        let fault = words.word("a number").unwrap_err();
        assert_eq!(fault.to_string(), "line 2: a number is missing at the end");
        assert_eq!(words.end(), Ok(()));
    }

    #[test]
    fn only_utf8() {
        assert_eq!(utf8(b"\xef\xbb\xbfrule"), Ok("rule"));
        let fault = utf8(b"rule a\n\nrule \xff").unwrap_err();
        assert_eq!(fault.to_string(), "line 3: this is not UTF-8 text");
    }
}
