//! Lines that are no calls, lines that hardly are, and comments.

use std::io::{self, Write};

use crate::journal::{MAX_LINE, NAMES, RULES};
use crate::Generator;

const UNKNOWN: [&str; 6] = ["", "x", "?", "0", "entry", "openclose"];
const NO_NUMBERS: [&str; 18] = [
    "",
    "-1",
    "+1",
    "-0",
    "0x10",
    "1.0",
    "1,000",
    "1e3",
    "one",
    "18446744073709551616",
    "18446744073709551625",
    "20000000000000000000",
    "99999999999999999999",
    "100000000000000000000",
    "340282366920938463463374607431768211456",
    "\u{661}",
    "1\t",
    "1\r",
];
/// `rules` takes no argument and no blank.
const NO_RULES: [&str; 14] = [
    "rules 0", "rules 0", "rules 1", "rules ", "rules ", "rules  0", " rules", "rules\r",
    "rules\t", "rules\0", "Rules", "RULES", "rule", "rules#",
];
/// An empty Month has its places and their fill all the same.
const NO_MONTHS: [&str; 14] = [
    "month",
    "month 0",
    "month 0",
    "month 0 32",
    "month 0 32",
    "month 0 32 ",
    "month 0 32 7 7",
    "month 0  32 7",
    "month 0 4097 7",
    "month 1 32 7",
    "month 32 7",
    "month 32 32 7",
    "month -0 32 7",
    "month 0 32 7\r",
];
/// A Target has two years, a length and a fill; its list is not typed.
const NO_TARGETS: [&str; 18] = [
    "target",
    "target 2000",
    "target 2000 2000",
    "target 2000 2000 6",
    "target 2000 2000 6",
    "target 2000 2000 6 ",
    "target 2000 2000 6 0 0",
    "target 2000 2000 2 7 7",
    "target 2000 2000 4097 0",
    "target 2000 2000 4097 0",
    "target 2000 2000 18446744073709551615 0",
    "target 18446744073709551616 2000 6 0",
    "target 2000 18446744073709551616 6 0",
    "target 2000 2000 6 18446744073709551616",
    "target 2000  2000 6 0",
    "target 2000-2000 6 0",
    "target 2000 2000 6 0\r",
    "Target 2000 2000 6 0",
];
/// A row has a day and a rate, and a Close has no rate any more.
const NO_RATES: [&str; 12] = [
    "close 100000 10 1152 0",
    "close 100000 10 1152 0",
    "close 100000 1152",
    "close 100000 4097 0",
    "rate",
    "rate 2",
    "rate 2 ",
    "rate 2 10 10",
    "rate 2  10",
    "rate 2 -10",
    "rate 2 10\r",
    "Rate 2 10",
];
/// Calls of later editions, which this one does not know.
const LATER: [&str; 4] = ["cause 0 1", "pair 0 1", "report 100 0", "defer 0 1"];
/// What is neither a call nor a comment, though some of it stands among the answers.
const SCRAWLS: [&str; 11] = [
    " ",
    "  ",
    " #",
    " # a remark",
    "\r",
    "\t",
    "\0",
    "-",
    "? line 1",
    "end 1",
    "  kept 0",
];

impl<W: Write> Generator<W> {
    pub fn comment(&mut self) -> io::Result<()> {
        match self.random.below(60) {
            0 => {
                let length = self
                    .random
                    .pick(&[MAX_LINE, MAX_LINE + 1, 2 * MAX_LINE + 7, 200_000]);
                self.line(&vec![b'#'; length])
            }
            1..=20 => self.line(b""),
            21..=30 => self.line(b"#"),
            31..=40 => self.line(b"#\0\r\t\xff\xfe open 2 0 0"),
            41..=50 => self.line(b"#close 100000 1152 0 "),
            _ => self.line(b"# a remark"),
        }
        .map(|_| ())
    }

    /// The words of a plausible call that takes arguments, if any may be written.
    fn good_words(&mut self) -> Option<Vec<String>> {
        let known: Vec<&str> = NAMES[..RULES]
            .iter()
            .copied()
            .filter(|name| self.may_call(name))
            .collect();
        if known.is_empty() {
            return None;
        }
        let name = self.random.pick(&known);
        Some(self.words_of(name))
    }

    /// The words of a plausible call of the name.
    pub fn words_of(&mut self, name: &str) -> Vec<String> {
        let arguments = self.arguments(name);
        let numbers = arguments.iter().map(u64::to_string);
        std::iter::once(name.to_string()).chain(numbers).collect()
    }

    /// A line with something wrong in its writing. It is no call, except that leading zeros are
    /// right, and that a line of 65,536 bytes is not too long.
    pub fn malformed_line(&mut self) -> io::Result<()> {
        let line = match (self.random.below(86), self.good_words()) {
            (0, Some(words)) => self.long_line(words),
            (1..=10, _) => self.random.pick(&NO_RULES).to_string(),
            (11..=18, _) => self.random.pick(&LATER).to_string(),
            (19..=22, _) => self.random.pick(&SCRAWLS).to_string(),
            (23..=30, _) => self.random.pick(&NO_MONTHS).to_string(),
            (31..=38, _) => self.random.pick(&NO_TARGETS).to_string(),
            (39..=46, _) => self.random.pick(&NO_RATES).to_string(),
            (_, Some(words)) => self.slip(words),
            _ => return Ok(()),
        };
        // With few calls listed, a slip must not write one that isn't.
        let name = line.split(' ').next().unwrap_or_default();
        if NAMES.contains(&name) && !self.may_call(name) {
            return Ok(());
        }
        self.line(line.as_bytes()).map(|_| ())
    }

    /// A call with a slip in one of its words or between them.
    fn slip(&mut self, mut words: Vec<String>) -> String {
        let argument = 1 + self.random.place(words.len() - 1);
        match self.random.below(15) {
            0 => words[0] = self.unknown_name(&words[0]),
            1 => words.push(self.random.pick(&["0", "1", "32"]).to_string()),
            2 => {
                words.remove(argument);
            }
            3 => words.truncate(argument),
            4 => return words.join("  "),
            5 => return format!("{} ", words.join(" ")),
            6 => return format!(" {}", words.join(" ")),
            7 => return words.join("\t"),
            8 => return format!("{}\r", words.join(" ")),
            9..=11 => words[argument] = self.random.pick(&NO_NUMBERS).to_string(),
            12 => words[argument].insert_str(0, &"0".repeat(self.random.place(60))),
            13 => return self.stray_byte(&words.join(" ")),
            _ => return words.join(self.random.pick(&["", ",", " \t", "\0", "\u{a0}"])),
        }
        words.join(" ")
    }

    /// A name that is no call's, mostly one that looks like it.
    fn unknown_name(&mut self, name: &str) -> String {
        let ending = self.random.pick(&["s", "\0", ",", "1", "_", "\u{e9}"]);
        match self.random.below(6) {
            0 => name.to_uppercase(),
            1 => name[..1].to_uppercase() + &name[1..],
            2 => name[..name.len() - 1].to_string(),
            3 => name[1..].to_string(),
            4 => name.to_string() + ending,
            _ => self.random.pick(&UNKNOWN).to_string(),
        }
    }

    /// A line with a byte put in somewhere, which is no line feed.
    fn stray_byte(&mut self, line: &str) -> String {
        let at = self.random.place(line.len() + 1);
        let stray = self.random.pick(&[
            " ", "\t", "\0", "\r", "-", "a", "Z", "/", ":", ".", "#", "\u{b}", "\u{7f}",
        ]);
        format!("{}{stray}{}", &line[..at], &line[at..])
    }

    /// A line of just 65,536 bytes, or of more.
    fn long_line(&mut self, words: Vec<String>) -> String {
        let mut line = words.join(" ");
        let length = self.random.pick(&[
            MAX_LINE - 1,
            MAX_LINE,
            MAX_LINE,
            MAX_LINE + 1,
            MAX_LINE + 1,
            140_000,
        ]);
        let padding = length.saturating_sub(line.len());
        match (self.random.below(4), line.rfind(' ')) {
            (0..=2, Some(space)) => line.insert_str(space + 1, &"0".repeat(padding)),
            _ => line.push_str(&" 1".repeat(padding.div_ceil(2))),
        }
        line
    }
}
