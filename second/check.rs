//! Comparing another program's answers.

use std::io::{self, BufRead, BufReader, Read};

use crate::book::Book;
use crate::journal::Call;

/// No right answer has so long a line; of a longer one only so much is read.
const LONGEST_ANSWER: u64 = 1 << 20;
/// Of a line at most so many bytes are shown.
const SHOWN: usize = 1_000;

/// The lines of the other program's answers.
pub struct Answers<R> {
    input: BufReader<R>,
    line: Vec<u8>,
}

impl<R: Read> Answers<R> {
    pub fn new(input: R) -> Self {
        Answers {
            input: BufReader::with_capacity(1 << 16, input),
            line: Vec::new(),
        }
    }

    /// The next line with its line feed if it has one; nothing at the end.
    pub fn next_line(&mut self) -> io::Result<&[u8]> {
        self.line.clear();
        (&mut self.input)
            .take(LONGEST_ANSWER)
            .read_until(b'\n', &mut self.line)?;
        Ok(&self.line)
    }
}

/// Rules, Reading: which obligation Look names is left free among those that qualify. Whether it may
/// answer 0 is no free choice, nor is a refusal.
pub fn look_allows(book: &Book, call: Call, given: &[u8]) -> bool {
    let Call::Look { member } = call else {
        return false;
    };
    let number = named(given).and_then(|plus_1| plus_1.checked_sub(1));
    number.is_some_and(|number| book.is_late(number, member))
}

/// The number that an accepted Look's answer names, if it is written as the format says.
fn named(given: &[u8]) -> Option<u64> {
    let text = std::str::from_utf8(given).ok()?;
    let plus_1 = text.strip_prefix("0 ")?.strip_suffix('\n')?.parse().ok()?;
    (format!("0 {plus_1}\n") == text).then_some(plus_1)
}

/// Shows a difference: the place in the journal, and the lines of the answer.
pub fn difference(number: u64, place: &str, expected: &[u8], given: &[u8]) -> String {
    let (expected, given) = (line_shown(expected), line_shown(given));
    format!("line {number}: {place}\nexpected: {expected}\ngiven:    {given}\n")
}

/// Shows the end of the journal, where the line `end` is expected, or nothing more.
pub fn difference_at_end(number: u64, expected: &[u8], given: &[u8]) -> String {
    let mut text = difference(number, "(the end of the journal)", expected, given);
    if given.is_empty() {
        text += "The last line of the answers is missing.\n";
    }
    text
}

/// A line as it is shown, which has its line feed unless it was torn off.
pub fn line_shown(line: &[u8]) -> String {
    match line.strip_suffix(b"\n") {
        Some(text) => visible(text),
        None if line.is_empty() => "(nothing)".to_string(),
        None => format!("{} (and no line feed)", visible(line)),
    }
}

fn visible(text: &[u8]) -> String {
    text[..text.len().min(SHOWN)].escape_ascii().to_string()
}

#[cfg(test)]
mod tests {
    use super::*;

    #[test]
    fn lines_of_answers_keep_their_line_feeds() {
        let mut answers = Answers::new(&b"0\n\nend 2"[..]);
        for line in [&b"0\n"[..], b"\n", b"end 2", b"", b""] {
            assert_eq!(answers.next_line().unwrap(), line);
        }
    }

    #[test]
    fn only_answers_in_the_format_name_an_obligation() {
        assert_eq!(named(b"0 12\n"), Some(12));
        for given in [
            &b"0 12"[..],
            b"0 012\n",
            b"0 +12\n",
            b"1 12\n",
            b"0 12 \n",
            b"",
        ] {
            assert_eq!(named(given), None, "{given:?}");
        }
    }

    #[test]
    fn shown_differences() {
        assert_eq!(
            difference(3, "look 1", b"0 1\n", b"\x00"),
            "line 3: look 1\nexpected: 0 1\ngiven:    \\x00 (and no line feed)\n"
        );
        assert_eq!(
            difference_at_end(3, b"", b"end 3\n"),
            "line 3: (the end of the journal)\nexpected: (nothing)\ngiven:    end 3\n"
        );
        assert_eq!(
            difference_at_end(3, b"end 3\n", b""),
            "line 3: (the end of the journal)\nexpected: end 3\ngiven:    (nothing)\n\
            The last line of the answers is missing.\n"
        );
    }
}
