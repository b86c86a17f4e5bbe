//! How a journal ends: with a whole line, or with one that was torn off.
//!
//! A journal has only one last line, so that its seed decides: of seven seeds in a row each has
//! another ending.

use std::io::{self, Write};

use crate::journal::{parse, MAX_LINE, NAMES, RULES};
use crate::play::Player;
use crate::Generator;

/// So many calls are drawn to find one that would change the book.
const DRAWS: u32 = 200;
/// The calls that change the book. Those that often still are calls when cut short stand more often.
const CHANGING: [&str; 12] = [
    "deliver", "deliver", "deliver", "enter", "close", "offer", "withdraw", "cancel", "month",
    "open", "close", "rate",
];

#[derive(Clone, Copy, Debug, PartialEq)]
pub enum Ending {
    /// The last line is the last of the scenarios.
    Whole,
    /// The last line is whole, and is no call on the book: a comment, an empty line or `rules`.
    WholeAside,
    /// What is left of the line is a call that would change the book.
    TornCall,
    /// Any part of a plausible call.
    TornAnywhere,
    /// What is left is no call even if it were whole.
    TornNoCall,
    TornComment,
    TornTooLong,
}

impl Ending {
    pub fn of_seed(seed: u64) -> Self {
        match seed % 7 {
            0 => Ending::Whole,
            1 => Ending::TornCall,
            2 => Ending::TornComment,
            3 => Ending::TornTooLong,
            4 => Ending::WholeAside,
            5 => Ending::TornAnywhere,
            _ => Ending::TornNoCall,
        }
    }
}

impl<W: Write> Generator<W> {
    pub fn end(&mut self, ending: Ending) -> io::Result<()> {
        let torn = match ending {
            Ending::Whole => return Ok(()),
            Ending::WholeAside => return self.aside(),
            Ending::TornCall => self.torn_call(),
            Ending::TornAnywhere => self.torn_anywhere(),
            Ending::TornNoCall => self.torn_no_call(),
            Ending::TornComment => self.torn_comment(),
            Ending::TornTooLong => self.torn_too_long(),
        };
        self.out.write_all(&torn)
    }

    fn aside(&mut self) -> io::Result<()> {
        let line: &[u8] = match self.random.below(3) {
            0 if self.knows("rules") => b"rules",
            1 => b"",
            _ => b"# the last remark",
        };
        self.line(line).map(|_| ())
    }

    /// The line of a plausible call; an empty one stands for none.
    fn good_line(&mut self, names: &[&str]) -> String {
        let known: Vec<&str> = names
            .iter()
            .copied()
            .filter(|name| self.knows(name))
            .collect();
        if known.is_empty() {
            return String::new();
        }
        let name = self.random.pick(&known);
        self.words_of(name).join(" ")
    }

    /// Whether the line, played on the book as it is, would change it.
    fn would_change_book(&mut self, line: &str) -> bool {
        let mut trial = Player::new();
        trial.book = self.player.book.clone();
        if let Some(call) = parse(line.as_bytes(), &self.calls, &mut self.numbers) {
            trial.play(call, &mut Vec::new());
        }
        trial.book != self.player.book
    }

    /// `deliver 0 40` torn to `deliver 0 4`, or such. Where no call that changes the book exists,
    /// it is any call.
    fn torn_call(&mut self) -> Vec<u8> {
        for _ in 0..DRAWS {
            let mut line = self.good_line(&CHANGING);
            let left = line.len().saturating_sub(self.random.place(3));
            line.truncate(left);
            if self.would_change_book(&line) {
                return line.into_bytes();
            }
        }
        self.torn_anywhere()
    }

    /// At least one byte is left: with none the line before would be the last.
    fn torn_anywhere(&mut self) -> Vec<u8> {
        let mut line = self.good_line(&NAMES);
        let left = match self.random.below(3) {
            0 => line.len(),
            1 => line.len().saturating_sub(self.random.place(4)),
            _ => self.random.place(line.len() + 1),
        };
        line.truncate(left.max(1));
        line.into_bytes()
    }

    fn torn_no_call(&mut self) -> Vec<u8> {
        let blank = self.good_line(&NAMES[..RULES]) + " ";
        let line = self.random.pick(&[
            "o", "ope", "rules 0", "rules ", "Rules", " ", " #", "\r", "\0", "end 1", "? line 1",
            &blank, &blank, &blank,
        ]);
        line.as_bytes().to_vec()
    }

    fn torn_comment(&mut self) -> Vec<u8> {
        match self.random.below(4) {
            0 => b"#".to_vec(),
            1 => b"#\0\r\xff deliver 0 4".to_vec(),
            2 => vec![b'#'; self.random.pick(&[MAX_LINE, MAX_LINE + 1, 200_000])],
            _ => b"# a rem".to_vec(),
        }
    }

    /// A call with so many leading zeros that it is too long, or one byte of anything too often.
    fn torn_too_long(&mut self) -> Vec<u8> {
        let length = self.random.pick(&[
            MAX_LINE + 1,
            MAX_LINE + 1,
            MAX_LINE + 2,
            2 * MAX_LINE,
            140_000,
        ]);
        let mut line = self.good_line(&NAMES[..RULES]);
        match line.rfind(' ') {
            Some(space) if self.random.percent(70) => {
                let zeros = length.saturating_sub(line.len());
                line.insert_str(space + 1, &"0".repeat(zeros));
                line.into_bytes()
            }
            _ => vec![self.random.pick(b"0 a\r\0"); length],
        }
    }
}

#[cfg(test)]
mod tests {
    use std::sync::OnceLock;

    use super::*;
    use crate::journal::{is_comment, CallSet};

    const SEEDS: u64 = 70;

    fn generated(seed: u64, length: u64, calls: CallSet) -> Generator<Vec<u8>> {
        let mut generator = Generator::new(seed, length, calls, Vec::new());
        generator.write_all(Ending::of_seed(seed)).unwrap();
        generator
    }

    /// A short journal, its last line apart, and the book before that line.
    fn journal(seed: u64, calls: CallSet) -> (Vec<u8>, Vec<u8>, Player) {
        let generator = generated(seed, 300, calls);
        let mut text = generator.out;
        let start = text.iter().rposition(|&byte| byte == b'\n').unwrap() + 1;
        let last = text.split_off(start);
        (text, last, generator.player)
    }

    fn is_call(line: &[u8]) -> bool {
        parse(line, &CallSet::all(), &mut Vec::new()).is_some()
    }

    #[test]
    fn each_ending_is_as_named() {
        for seed in 0..SEEDS {
            let (_, last, player) = journal(seed, CallSet::all());
            let ending = Ending::of_seed(seed);
            let holds = match ending {
                Ending::Whole | Ending::WholeAside => last.is_empty(),
                Ending::TornCall => changes_book(&last, player),
                Ending::TornAnywhere => !last.is_empty() && !is_comment(&last),
                Ending::TornNoCall => !is_comment(&last) && !is_call(&last),
                Ending::TornComment => last.starts_with(b"#"),
                Ending::TornTooLong => last.len() > MAX_LINE && !is_comment(&last),
            };
            assert!(holds, "{seed}: {ending:?}: {}", last.escape_ascii());
        }
    }

    fn changes_book(line: &[u8], mut player: Player) -> bool {
        let (before, mut numbers) = (player.book.clone(), Vec::new());
        let call = parse(line, &CallSet::all(), &mut numbers).expect("a call");
        player.play(call, &mut Vec::new());
        player.book != before
    }

    #[test]
    fn torn_calls_are_of_several_kinds() {
        let name = |seed: u64| {
            let (_, last, _) = journal(seed, CallSet::all());
            last.split(|&byte| byte == b' ').next().map(<[u8]>::to_vec)
        };
        let mut names: Vec<_> = (0..SEEDS)
            .step_by(7)
            .filter_map(|seed| name(seed + 1))
            .collect();
        names.sort();
        names.dedup();
        assert!(names.len() >= 3, "{names:?}");
    }

    #[test]
    fn few_calls_can_be_torn_too() {
        for list in ["status", "rules", "look,rules"] {
            for seed in 0..14 {
                let (_, last, _) = journal(seed, CallSet::listed(list).unwrap());
                let ending = Ending::of_seed(seed);
                let whole = matches!(ending, Ending::Whole | Ending::WholeAside);
                assert_eq!(last.is_empty(), whole, "{list}: {seed}");
            }
        }
    }

    #[test]
    fn the_same_arguments_give_the_same_journal() {
        let texts = || journal(5, CallSet::all());
        let ((text, last, _), (again, last_again, _)) = (texts(), texts());
        assert_eq!((text, last), (again, last_again));
        assert_ne!(texts().0, journal(6, CallSet::all()).0);
    }

    #[test]
    fn no_calls_make_an_empty_text() {
        for seed in 0..7 {
            assert!(generated(seed, 0, CallSet::all()).out.is_empty());
        }
    }

    /// Whether a line of any of some long journals has the property.
    fn any_line(holds: impl Fn(&[u8]) -> bool) -> bool {
        static TEXTS: OnceLock<Vec<Vec<u8>>> = OnceLock::new();
        let texts = TEXTS.get_or_init(|| {
            (0..20)
                .map(|seed| generated(seed, 5_000, CallSet::all()).out)
                .collect()
        });
        let mut lines = texts
            .iter()
            .flat_map(|text| text.split(|&byte| byte == b'\n'));
        lines.any(holds)
    }

    /// Asserts that some line of these journals has each of the starts.
    fn assert_starts(starts: &[&str]) {
        for start in starts {
            let is_met = any_line(|written| written.starts_with(start.as_bytes()));
            assert!(is_met, "{start:?}");
        }
    }

    /// Asserts that each of the lines stands in these journals.
    fn assert_written(lines: &[&str]) {
        for line in lines {
            let is_met = any_line(|written| written == line.as_bytes());
            assert!(is_met, "{line:?}");
        }
    }

    #[test]
    fn rules_are_asked_rightly_and_wrongly() {
        assert_written(&["rules", "rules 0", "rules ", "Rules"]);
    }

    #[test]
    fn empty_months_have_places_of_all_numbers() {
        assert_starts(&["month 0 0 ", "month 0 31 ", "month 0 32 ", "month 0 33 "]);
    }

    #[test]
    fn empty_months_are_written_wrongly_too() {
        assert_written(&[
            "month",
            "month 0",
            "month 0 32",
            "month 0 32 ",
            "month 0 32 7 7",
        ]);
    }

    #[test]
    fn targets_have_lists_of_all_lengths() {
        assert_starts(&[
            "target 2000 2000 5 ",
            "target 2000 2000 6 ",
            "target 2000 2007 48 ",
            "target 2000 2007 4096 ",
            "target 2000 2008 53 ",
            "target 2000 2008 54 ",
            "target 2001 2000 0 ",
            "target 18446744073709551615 0 0 ",
            "target 0 18446744073709551615 4096 ",
        ]);
    }

    #[test]
    fn targets_are_written_wrongly_too() {
        assert_written(&[
            "target",
            "target 2000 2000 6",
            "target 2000 2000 6 0 0",
            "target 2000 2000 4097 0",
        ]);
    }

    #[test]
    fn rates_and_closes_are_written_wrongly_too() {
        assert_written(&[
            "close 100000 10 1152 0",
            "close 100000 1152",
            "rate",
            "rate 2",
            "rate 2 10 10",
        ]);
    }

    #[test]
    fn again_has_lists_of_all_lengths() {
        assert_starts(&["again 1151 ", "again 1152 ", "again 4096 ", "again 4097 "]);
    }
}
