//! Reading lines of any length in bounded memory.

use std::io::{ErrorKind, Read, Result};

const BLOCK: usize = 1 << 16;

/// The lines of an input. Of a line longer than `keep` bytes only the first `keep` are held.
pub struct LineReader<R> {
    input: R,
    block: Vec<u8>,
    start: usize,
    end: usize,
    keep: usize,
    line: Vec<u8>,
    ended: bool,
    /// The number of the line held, from 1 on; at the end the number of all lines.
    pub number: u64,
    /// Whether the line held is a last one that lacks its line feed; at the end whether the last
    /// line was one.
    pub torn: bool,
}

impl<R: Read> LineReader<R> {
    pub fn new(input: R, keep: usize) -> Self {
        LineReader {
            input,
            block: vec![0; BLOCK],
            start: 0,
            end: 0,
            keep,
            line: Vec::new(),
            ended: false,
            number: 0,
            torn: false,
        }
    }

    /// The line held, without its line feed.
    pub fn line(&self) -> &[u8] {
        &self.line
    }

    /// Goes to the next line; false at the end. The last line may lack its line feed: it is torn.
    /// `before_read` is called before each reading of the input, which may block. After an error
    /// the bytes held are no line, and the reader is not to be used again.
    pub fn advance(&mut self, mut before_read: impl FnMut() -> Result<()>) -> Result<bool> {
        self.line.clear();
        let mut any = false;
        loop {
            if self.start == self.end {
                // A terminal or a growing file may give more after its end: a torn line would then
                // be no last one, so that nothing is read after the end.
                if !self.ended {
                    before_read()?;
                    self.refill()?;
                }
                if self.ended {
                    self.torn |= any;
                    return Ok(any);
                }
            }
            if !any {
                any = true;
                self.number += 1;
            }
            let rest = &self.block[self.start..self.end];
            let feed = rest.iter().position(|&byte| byte == b'\n');
            let part = &rest[..feed.unwrap_or(rest.len())];
            let room = self.keep - self.line.len();
            self.line.extend_from_slice(&part[..part.len().min(room)]);
            self.start += part.len();
            if feed.is_some() {
                self.start += 1;
                return Ok(true);
            }
        }
    }

    fn refill(&mut self) -> Result<()> {
        self.start = 0;
        self.end = loop {
            match self.input.read(&mut self.block) {
                Err(error) if error.kind() == ErrorKind::Interrupted => continue,
                read => break read?,
            }
        };
        self.ended = self.end == 0;
        Ok(())
    }
}

#[cfg(test)]
mod tests {
    use super::*;

    /// An input that gives at most two bytes at a time.
    struct Drip<'a>(&'a [u8]);

    impl Read for Drip<'_> {
        fn read(&mut self, buffer: &mut [u8]) -> Result<usize> {
            let length = buffer.len().min(2);
            self.0.read(&mut buffer[..length])
        }
    }

    /// A line as the reader holds it: its number, its bytes and whether it is torn.
    type Held = (u64, Vec<u8>, bool);

    fn held<R: Read>(reader: &LineReader<R>) -> Held {
        (reader.number, reader.line().to_vec(), reader.torn)
    }

    fn lines(text: &[u8]) -> Vec<Held> {
        let mut reader = LineReader::new(Drip(text), 4);
        let mut lines = Vec::new();
        while reader.advance(|| Ok(())).unwrap() {
            lines.push(held(&reader));
        }
        lines
    }

    fn whole(number: u64, line: &[u8]) -> Held {
        (number, line.to_vec(), false)
    }

    fn torn(number: u64, line: &[u8]) -> Held {
        (number, line.to_vec(), true)
    }

    #[test]
    fn lines_end_with_line_feeds() {
        assert_eq!(lines(b""), []);
        assert_eq!(lines(b"\n"), [whole(1, b"")]);
        assert_eq!(
            lines(b"ab\n\nc\rd\n"),
            [whole(1, b"ab"), whole(2, b""), whole(3, b"c\rd")]
        );
    }

    #[test]
    fn a_last_line_without_its_line_feed_is_torn() {
        assert_eq!(lines(b"abc"), [torn(1, b"abc")]);
        assert_eq!(
            lines(b"ab\n\nc"),
            [whole(1, b"ab"), whole(2, b""), torn(3, b"c")]
        );
    }

    #[test]
    fn long_lines_are_cut() {
        assert_eq!(
            lines(b"abcdefgh\nabcdefgh"),
            [whole(1, b"abcd"), torn(2, b"abcd")]
        );
    }

    #[test]
    fn number_and_torn_stay_at_the_end() {
        for (text, expected) in [(&b"a\nb\n"[..], (2, false)), (b"a\nb", (2, true))] {
            let mut reader = LineReader::new(text, 4);
            while reader.advance(|| Ok(())).unwrap() {}
            assert!(!reader.advance(|| Ok(())).unwrap());
            assert_eq!((reader.number, reader.torn), expected);
        }
    }

    /// An input that gives each of its parts in turn; an empty part is an end, none an error.
    struct Parts(Vec<Option<&'static [u8]>>);

    impl Read for Parts {
        fn read(&mut self, buffer: &mut [u8]) -> Result<usize> {
            let part = self.0.remove(0).ok_or(ErrorKind::Other)?;
            buffer[..part.len()].copy_from_slice(part);
            Ok(part.len())
        }
    }

    #[test]
    fn nothing_is_read_after_the_end() {
        let mut reader = LineReader::new(Parts(vec![Some(b"ab"), Some(b""), Some(b"c\n")]), 4);
        assert!(reader.advance(|| Ok(())).unwrap());
        assert_eq!(held(&reader), torn(1, b"ab"));
        assert!(!reader.advance(|| Ok(())).unwrap());
        assert_eq!(reader.number, 1);
    }

    #[test]
    fn bytes_before_a_failed_read_are_no_line() {
        let mut reader = LineReader::new(Parts(vec![Some(b"a\nb"), None]), 4);
        assert!(reader.advance(|| Ok(())).unwrap());
        assert_eq!(held(&reader), whole(1, b"a"));
        assert!(reader.advance(|| Ok(())).is_err());
        assert!(!reader.torn);
    }
}
