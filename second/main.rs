//! `second`: plays a journal of a settlement discipline book, or checks another program's answers.

mod after_target;
mod auction;
mod book;
mod check;
mod hits;
mod holidays;
mod journal;
mod lines;
mod month_traps;
mod play;
mod target_traps;
mod traps;
mod turn_traps;
mod twins;

use std::env;
use std::fs::File;
use std::io::{self, Read, Write};
use std::os::fd::AsFd;
use std::process::ExitCode;

use check::Answers;
use hits::{Hits, Torn};
use journal::{is_comment, parse, CallSet, MAX_LINE};
use lines::LineReader;
use play::{put_number, Player};

const USAGE: &str = "usage: second [--check ANSWERS] [--calls LIST] [--hits FILE] < JOURNAL";
/// Answers are written when this many bytes of them wait.
const OUTPUT_BUFFER: usize = 1 << 16;

struct Options {
    check: Option<String>,
    calls: CallSet,
    hits: Option<String>,
}

fn options() -> Result<Options, String> {
    let mut options = Options {
        check: None,
        calls: CallSet::all(),
        hits: None,
    };
    let mut arguments = env::args().skip(1);
    while let Some(argument) = arguments.next() {
        let value = arguments.next().ok_or(USAGE)?;
        match argument.as_str() {
            "--check" => options.check = Some(value),
            "--calls" => options.calls = CallSet::listed(&value)?,
            "--hits" => options.hits = Some(value),
            _ => return Err(USAGE.to_string()),
        }
    }
    Ok(options)
}

/// A journal, the book it is played on, and the counts where they are asked for.
struct Run<R> {
    journal: LineReader<R>,
    calls: CallSet,
    player: Player,
    /// Counting takes time, so that there is none of it where nobody asks for the table.
    hits: Option<Hits>,
    numbers: Vec<u64>,
}

impl<R: Read> Run<R> {
    fn new(journal: R, calls: CallSet) -> Self {
        Run {
            // One byte more than the longest call is kept: it shows that a line is too long.
            journal: LineReader::new(journal, MAX_LINE + 1),
            calls,
            player: Player::new(),
            hits: None,
            numbers: Vec::new(),
        }
    }

    /// Plays the line held and adds its answer, if it has one, to the output.
    fn play_line(&mut self, out: &mut Vec<u8>) {
        if self.journal.torn {
            self.play_torn_line(out);
            return;
        }
        let line = self.journal.line();
        if is_comment(line) {
            return;
        }
        let Some(call) = parse(line, &self.calls, &mut self.numbers) else {
            put_line(out, b"? line ", self.journal.number);
            if let Some(hits) = &mut self.hits {
                hits.malformed();
            }
            return;
        };
        match &mut self.hits {
            Some(hits) => hits.play(&mut self.player, call, out),
            None => {
                self.player.play(call, out);
            }
        }
    }

    /// A torn line is no call, whatever it says; what it says is only counted.
    fn play_torn_line(&mut self, out: &mut Vec<u8>) {
        let line = self.journal.line();
        if !is_comment(line) {
            put_line(out, b"? line ", self.journal.number);
        }
        if let Some(hits) = &mut self.hits {
            hits.torn(torn_says(line, &self.calls, &mut self.numbers));
        }
    }

    /// Adds the last line, after the whole text was read, played and answered.
    fn play_end(&mut self, out: &mut Vec<u8>) {
        let lines = self.journal.number;
        put_line(out, b"end ", lines);
        if let Some(hits) = &mut self.hits {
            hits.end(lines > 0 && !self.journal.torn);
        }
    }

    fn play_all(&mut self, output: &mut impl Write) -> io::Result<()> {
        let mut out = Vec::with_capacity(2 * OUTPUT_BUFFER);
        // The answers so far are written before each read, so that a failed one takes none away.
        while self.journal.advance(|| write_out(output, &mut out))? {
            self.play_line(&mut out);
            if out.len() >= OUTPUT_BUFFER {
                write_out(output, &mut out)?;
            }
        }
        self.play_end(&mut out);
        write_out(output, &mut out)
    }

    /// How the answers first differ from those of this program, but for a free choice of Look.
    fn check_all(&mut self, answers: impl Read) -> io::Result<Option<String>> {
        let mut answers = Answers::new(answers);
        let mut expected = Vec::new();
        while self.journal.advance(|| Ok(()))? {
            expected.clear();
            self.play_line(&mut expected);
            for line in expected.split_inclusive(|&byte| byte == b'\n') {
                let given = answers.next_line()?;
                if given != line && !self.may_answer(given) {
                    return Ok(Some(self.difference(line, given)));
                }
            }
        }
        self.check_end(&mut answers)
    }

    /// The line `end` is the last one: nothing stands after it.
    fn check_end(&mut self, answers: &mut Answers<impl Read>) -> io::Result<Option<String>> {
        let mut end = Vec::new();
        self.play_end(&mut end);
        for line in [&end[..], b""] {
            let given = answers.next_line()?;
            if given != line {
                let number = self.journal.number;
                return Ok(Some(check::difference_at_end(number, line, given)));
            }
        }
        Ok(None)
    }

    /// Whether the line held is a Look that may also be answered as given.
    fn may_answer(&mut self, given: &[u8]) -> bool {
        if self.journal.torn {
            return false;
        }
        let call = parse(self.journal.line(), &self.calls, &mut self.numbers);
        call.is_some_and(|call| check::look_allows(&self.player.book, call, given))
    }

    fn difference(&self, expected: &[u8], given: &[u8]) -> String {
        let mut line = self.journal.line().to_vec();
        if !self.journal.torn {
            line.push(b'\n');
        }
        check::difference(
            self.journal.number,
            &check::line_shown(&line),
            expected,
            given,
        )
    }
}

/// What a torn line says. The list of numbers is lent to the reading of calls.
fn torn_says(line: &[u8], calls: &CallSet, numbers: &mut Vec<u64>) -> Torn {
    if is_comment(line) {
        Torn::Comment
    } else if line.len() > MAX_LINE {
        Torn::TooLong
    } else if parse(line, calls, numbers).is_some() {
        Torn::Call
    } else {
        Torn::NoCall
    }
}

/// Adds a line of a text and a number.
fn put_line(out: &mut Vec<u8>, text: &[u8], number: u64) {
    out.extend_from_slice(text);
    put_number(out, number);
    out.push(b'\n');
}

fn write_out(output: &mut impl Write, out: &mut Vec<u8>) -> io::Result<()> {
    if !out.is_empty() {
        output.write_all(out)?;
        output.flush()?;
        out.clear();
    }
    Ok(())
}

/// A standard stream as a plain file. The library's own streams take some failures for the end of
/// the input, or for success, and may write what they hold after a failed write.
fn plain_file(stream: impl AsFd) -> io::Result<File> {
    Ok(File::from(stream.as_fd().try_clone_to_owned()?))
}

fn run(options: &Options) -> io::Result<bool> {
    let mut run = Run::new(plain_file(io::stdin())?, options.calls);
    run.hits = options.hits.is_some().then(Hits::new);
    let difference = match &options.check {
        Some(path) => run.check_all(File::open(path)?)?,
        None => {
            run.play_all(&mut plain_file(io::stdout())?)?;
            None
        }
    };
    if let (Some(path), Some(hits)) = (&options.hits, &run.hits) {
        File::create(path)?.write_all(hits.table(&options.calls).as_bytes())?;
    }
    if let Some(text) = &difference {
        io::stdout().write_all(text.as_bytes())?;
    }
    Ok(difference.is_none())
}

fn main() -> ExitCode {
    let outcome = options().and_then(|options| run(&options).map_err(|error| error.to_string()));
    match outcome {
        Ok(true) => ExitCode::SUCCESS,
        Ok(false) => ExitCode::from(1),
        Err(message) => {
            eprintln!("{message}");
            ExitCode::from(2)
        }
    }
}

#[cfg(test)]
mod tests {
    use super::*;
    use crate::play::EDITION;

    fn run_of(journal: &[u8]) -> Run<&[u8]> {
        Run::new(journal, CallSet::all())
    }

    fn answers(journal: &[u8]) -> String {
        let mut out = Vec::new();
        run_of(journal).play_all(&mut out).unwrap();
        String::from_utf8(out).unwrap()
    }

    fn difference(journal: &[u8], answers: &str) -> Option<String> {
        run_of(journal).check_all(answers.as_bytes()).unwrap()
    }

    #[test]
    fn the_end_counts_every_line() {
        assert_eq!(answers(b""), "end 0\n");
        assert_eq!(answers(b"\n"), "end 1\n");
        let edition = format!("0 {EDITION}\n");
        for (journal, rest) in [
            (&b"#\n\nrules\nx\n"[..], "? line 4\nend 4\n"),
            (b"rules\n#", "end 2\n"),
            (b"rules\n\nx", "? line 3\nend 3\n"),
        ] {
            assert_eq!(answers(journal), format!("{edition}{rest}"));
        }
    }

    #[test]
    fn a_torn_line_is_no_call() {
        for line in [&b"rules"[..], b"look 0", b"open 2 1 0", b"o", b" ", b" #"] {
            assert_eq!(answers(line), "? line 1\nend 1\n", "{line:?}");
        }
        let long = b"0".repeat(200_000);
        assert_eq!(answers(&long), "? line 1\nend 1\n");
        assert_eq!(answers(&[&b"#"[..], &long].concat()), "end 1\n");
    }

    #[test]
    fn a_torn_line_changes_nothing() {
        let journal = b"open 2 1 0\nenter 0 1 0 50 1000 2\nenter 1 0 1 50 1000 2\ndeliver 0 4";
        let mut run = run_of(journal);
        let mut out = Vec::new();
        run.play_all(&mut out).unwrap();
        assert_eq!(out, b"0\n0 0 0\n0 1 1\n? line 4\nend 4\n");
        assert_eq!(run.player.book.status(0), Ok([50, 0, 0, 0, 0, 50]));
    }

    #[test]
    fn rules_can_be_left_out() {
        let mut out = Vec::new();
        let calls = CallSet::listed("look").unwrap();
        Run::new(&b"rules\n"[..], calls).play_all(&mut out).unwrap();
        assert_eq!(out, b"? line 1\nend 1\n");
    }

    /// The rows of the table of hits that were met. Counting changes no answer.
    fn met(journal: &[u8]) -> Vec<String> {
        let (mut run, mut out) = (run_of(journal), Vec::new());
        run.hits = Some(Hits::new());
        run.play_all(&mut out).unwrap();
        assert_eq!(out, answers(journal).as_bytes());
        let table = run.hits.unwrap().table(&run.calls);
        let rows = table.lines().filter(|row| !row.ends_with(" 0"));
        rows.map(str::to_string).collect()
    }

    #[test]
    fn the_kinds_of_lines_are_counted_once() {
        let rows = met(format!("{LATE}close 1 1151 0\nagain 1152 0\n").as_bytes());
        let kinds: Vec<_> = rows.iter().filter(|row| row.starts_with("kind")).collect();
        assert_eq!(kinds, ["kind 1 2"]);
    }

    #[test]
    fn the_kinds_of_torn_lines_are_counted() {
        let long = b"9".repeat(MAX_LINE + 1);
        let journals: [(&[u8], &[&str]); 6] = [
            (b"rules", &["torn call 1", "end 1"]),
            (b"rules 0", &["torn no-call 1", "end 1"]),
            (&long, &["torn too-long 1", "end 1"]),
            (b"# rules", &["torn comment 1", "end 1"]),
            (b"#\n", &["whole last line 1", "end 1"]),
            (b"", &["end 1"]),
        ];
        for (journal, rows) in journals {
            assert_eq!(met(journal), rows);
        }
    }

    /// Checks which traps of a name a journal meets, each of them once.
    fn assert_traps_named(name: &str, journal: &str, traps: &[&str]) {
        let rows = met(journal.as_bytes());
        let found: Vec<&str> = rows
            .iter()
            .filter_map(|row| row.strip_prefix(name)?.strip_suffix(" 1"))
            .collect();
        assert_eq!(found, traps, "{journal}");
    }

    fn assert_traps(journal: &str, traps: &[&str]) {
        assert_traps_named("trap again-", journal, traps);
    }

    fn assert_month_traps(journal: &str, traps: &[&str]) {
        assert_traps_named("trap month-", journal, traps);
    }

    /// The line of a Month whose member 0 paid so much, with 32 places.
    fn typed(length: usize, paid: u64) -> String {
        format!("month {length} {paid}{} 32 8", " 0".repeat(length - 1))
    }

    /// A Close of no lines.
    const CLOSED: &str = "rate 2 1\nclose 1 1152 0\n";

    #[test]
    fn the_traps_before_a_close_are_counted() {
        let traps: [(&str, &[&str]); 7] = [
            (
                "again 1152 0",
                &["22-no-close", "22-before-open", "22-of-1152"],
            ),
            (
                "close 0 1152 0\nclose 1 1151 0\nagain 4096 0",
                &[
                    "22-before-open",
                    "22-after-close-3",
                    "22-after-close-5",
                    "22-of-4096",
                ],
            ),
            (
                "open 65533 1 0\nclose 1 1152 0\nagain 2000 0",
                &["22-after-close-20"],
            ),
            (
                &format!("{CLOSED}open 2 1 0\nagain 2000 0"),
                &["22-no-close", "22-after-open"],
            ),
            (
                &format!("{CLOSED}open 2 2 0\nagain 2000 0"),
                &["22-no-close", "22-after-refused-open"],
            ),
            ("again 1151 0", &["5-of-1151-not-22"]),
            ("again 0 0", &[]),
        ];
        for (journal, traps) in traps {
            assert_traps(&format!("{journal}\n"), traps);
        }
    }

    #[test]
    fn the_traps_after_a_close_of_no_lines_are_counted() {
        let traps: [(&str, &[&str]); 3] = [
            ("again 0 0", &["5-of-0-no-lines"]),
            ("again 1151 0", &["5-of-1151"]),
            ("again 1152 0", &["before-open", "no-lines"]),
        ];
        for (journal, traps) in traps {
            assert_traps(&format!("{CLOSED}{journal}\n"), traps);
        }
        assert_traps(
            "open 65532 1 0\nrate 65532 1\nclose 1 1152 0\nclose 1 1152 0\nagain 1152 0\n",
            &["no-lines", "after-close-20"],
        );
    }

    #[test]
    fn the_traps_after_a_close_with_lines_are_counted() {
        let month = format!("month 32{} 32 0", " 0".repeat(32));
        let traps: [(&str, &[&str]); 15] = [
            ("again 11 0", &[]),
            ("again 12 0", &["5-enough"]),
            ("again 1151 0", &["5-of-1151", "5-enough"]),
            ("again 1153 0", &[]),
            ("again 1152 0", &["of-1152"]),
            ("again 4096 0", &["of-4096"]),
            ("again 1152 0\nagain 1153 0", &["of-1152", "after-again"]),
            ("again 1152 0\nlook 0\nagain 1153 0", &["of-1152"]),
            ("close 0 1152 0\nagain 1153 0", &["after-close-3"]),
            ("close 1 1151 0\nagain 1153 0", &["after-close-5"]),
            (&(month + "\nagain 1153 0"), &["after-month"]),
            (
                "enter 5 6 0 3 1 3\nwithdraw 4 5\nagain 1153 0",
                &["after-enter", "after-withdraw"],
            ),
            (
                "cancel 0 0\ndeliver 1 9\ndeliver 1 4\nagain 1153 0",
                &["after-cancel", "after-deliver"],
            ),
            (
                "deliver 0 3\nclose 1 1152 0\nagain 1153 0",
                &["fewer-lines"],
            ),
            (
                "deliver 0 3\ndeliver 1 4\nclose 1 1152 0\nagain 1153 0",
                &["no-lines", "no-lines-after-some"],
            ),
        ];
        for (journal, traps) in traps {
            assert_traps(&format!("{LATE}{journal}\n"), traps);
        }
        let closes = "close 1 1152 0\n".repeat(10);
        assert_traps(
            &format!("{LATE}{closes}offer 0 7 1 1\nagain 1153 0\n"),
            &["after-offer"],
        );
    }

    #[test]
    fn the_traps_of_months_before_a_close_are_counted() {
        let traps: [(&str, &[&str]); 9] = [
            ("month 0 0 8", &["empty-5-of-0-not-21"]),
            ("month 0 31 8", &["empty-5-of-31-not-21"]),
            ("month 0 33 8", &["empty-5-of-33-not-21"]),
            ("month 0 30 8", &[]),
            (&typed(1, 0), &["5-list-of-1-not-21"]),
            (&typed(31, 0), &["5-list-of-31-not-21"]),
            (&typed(33, 0), &["5-list-of-33-not-21"]),
            (&typed(32, 0), &[]),
            ("month 0 32 8", &["empty-21-no-close"]),
        ];
        for (journal, traps) in traps {
            assert_month_traps(&format!("open 2 1 0\n{journal}\n"), traps);
        }
        assert_month_traps(
            "month 0 32 8\n",
            &["empty-21-no-close", "empty-21-before-open"],
        );
        assert_month_traps(
            "open 2 2 0\nmonth 0 32 8\n",
            &["empty-21-no-close", "empty-21-after-refused-open"],
        );
        assert_month_traps(&format!("{CLOSED}month 0 32 8\n"), &["empty-all-zero"]);
    }

    /// An obligation of member 0 to member 1, and a Close by which 30 cents are owed.
    const OWED: &str =
        "rate 2 100\nenter 0 1 0 3 1000 2\nenter 1 0 1 3 1000 2\nclose 100000 1152 1\n";

    #[test]
    fn the_traps_of_months_after_a_close_are_counted() {
        let (zeros, in_full) = (typed(32, 0), typed(32, 30));
        let traps: [(&str, &[&str]); 12] = [
            ("month 0 0 8", &["empty-5-of-0"]),
            ("month 0 31 8", &["empty-5-of-31"]),
            ("month 0 33 8", &["empty-5-of-33"]),
            (&typed(1, 30), &["5-list-of-1"]),
            (&typed(31, 30), &["5-list-of-31"]),
            (&typed(33, 30), &["5-list-of-33"]),
            (&in_full, &[]),
            (&typed(32, 29), &[]),
            (&zeros, &["zeros-owed"]),
            (
                "month 0 32 8\nmonth 0 32 8",
                &["empty-21-after-empty", "empty-done"],
            ),
            (
                &format!("{in_full}\nmonth 0 32 8"),
                &["empty-21-after-month"],
            ),
            (
                &format!("month 0 32 8\n{zeros}\naccount 0\n{zeros}"),
                &["21-after-empty", "empty-done"],
            ),
        ];
        for (journal, traps) in traps {
            assert_month_traps(&format!("open 2 1 0\n{OWED}{journal}\n"), traps);
        }
        assert_month_traps(
            &format!("{OWED}month 0 32 8\n"),
            &["empty-done", "empty-before-open"],
        );
        assert_month_traps(
            &format!("open 2 2 0\n{OWED}month 0 32 8\n"),
            &["empty-done", "empty-after-refused-open"],
        );
    }

    #[test]
    fn the_traps_of_months_after_a_month_are_counted() {
        let (first, second) = ("open 2 1 0\n", "close 100000 1152 1\n");
        let in_full = typed(32, 30);
        for (one, other, traps) in [
            (&in_full[..], &in_full[..], &[][..]),
            (
                &in_full,
                "month 0 32 8",
                &["empty-done", "empty-after-month"],
            ),
            ("month 0 32 8", &in_full, &["empty-done", "after-empty"]),
        ] {
            assert_month_traps(&format!("{first}{OWED}{one}\n{second}{other}\n"), traps);
        }
        let empty = "month 0 32 8\n";
        let rows = met(format!("{first}{OWED}{empty}{second}{empty}").as_bytes());
        for row in ["trap month-empty-done 2", "trap month-empty-after-empty 1"] {
            assert!(rows.iter().any(|met| met == row), "{row}");
        }
    }

    #[test]
    fn large_months_are_counted() {
        let pair = "enter 0 1 0 100000 1 2\nenter 1 0 1 100000 1 2\n".repeat(64);
        let closes = "close 150000 1152 0\n".repeat(36);
        assert_month_traps(
            &format!("open 2 0 0\nrate 2 100\n{pair}{closes}month 0 32 8\n"),
            &["empty-done", "empty-large"],
        );
    }

    #[test]
    fn months_with_offers_are_counted() {
        let closes = "close 100000 1152 0\n".repeat(10);
        let offered = format!("open 2 1 0\n{OWED}{closes}offer 0 7 1 1\n");
        assert_month_traps(
            &format!("{offered}month 0 32 8\n"),
            &["empty-done", "empty-with-offers"],
        );
        assert_month_traps(
            &format!("{offered}close 1 1152 0\nmonth 0 32 8\n"),
            &["empty-done"],
        );
    }

    /// The rows that two books meet as twins. They begin with the calls given, and one has an empty
    /// Month where the other has the typed one.
    fn pair_rows(before: &str, typed: &str, places: &str, after: &str) -> Vec<String> {
        let typed = typed.replace(" 32 8", &format!(" {places} 8"));
        let empty = format!("month 0 {places} 8");
        let books = [&typed, &empty].map(|month| format!("open 2 1 0\n{before}{month}\n{after}"));
        let rows = met(books.concat().as_bytes());
        let reversed = met([&books[1][..], &books[0]].concat().as_bytes());
        let pairs = |rows: Vec<String>| -> Vec<String> {
            let names = rows
                .iter()
                .filter_map(|row| row.strip_prefix("trap month-pair-"));
            names.map(str::to_string).collect()
        };
        let found = pairs(rows);
        assert_eq!(found, pairs(reversed));
        found
    }

    #[test]
    fn pairs_of_months_are_counted() {
        let (zeros, in_full) = (typed(32, 0), typed(32, 30));
        let no_pair: [&str; 0] = [];
        assert_eq!(pair_rows(OWED, &in_full, "32", ""), ["done 1"]);
        assert_eq!(pair_rows(OWED, &in_full, "31", ""), ["5-of-31 1"]);
        assert_eq!(pair_rows(OWED, &in_full, "33", ""), ["5-of-33 1"]);
        assert_eq!(pair_rows(OWED, &typed(32, 29), "32", ""), no_pair);
        assert_eq!(pair_rows(OWED, &zeros, "32", ""), no_pair);
        assert_eq!(pair_rows(OWED, "month 0 32 8", "32", ""), no_pair);
        assert_eq!(pair_rows("", &zeros, "32", ""), ["21 1"]);
        assert_eq!(pair_rows(CLOSED, &zeros, "32", ""), ["all-zero 1"]);
    }

    #[test]
    fn what_follows_a_pair_is_counted() {
        let (zeros, in_full) = (typed(32, 0), typed(32, 30));
        let after = "account 0\naccount 1\naccount 2\naccount 32\nmonth 0 32 8\nlook 0\n\
            close 100000 1152 1\naccount 0\nmonth 0 32 8\nmonth 0 32 8\n";
        assert_eq!(
            pair_rows(OWED, &in_full, "32", after),
            [
                "done 1",
                "done-then-account 2",
                "done-then-21 1",
                "done-then-done 1"
            ]
        );
        assert_eq!(
            pair_rows(OWED, &in_full, "33", after),
            ["5-of-33 1", "5-then-account 2", "5-then-done 1"]
        );
        assert_eq!(
            pair_rows("rate 2 100\n", &zeros, "32", after),
            ["21 1", "21-then-21 1"]
        );
    }

    #[test]
    fn books_with_other_calls_are_no_twins() {
        let in_full = typed(32, 30);
        let books = [
            format!("open 2 1 0\n{OWED}{in_full}\naccount 0\n"),
            format!("open 2 1 0\n{OWED}month 0 32 8\nlook 0\naccount 0\n"),
            format!("open 2 0 0\n{OWED}{in_full}\naccount 0\n"),
            format!("open 2 0 0\n{OWED}look 0\nmonth 0 32 8\naccount 0\n"),
            format!("open 2 1 0\n{OWED}month 0 32 9\naccount 0\n"),
        ];
        let rows = met(books.concat().as_bytes());
        let pairs: Vec<_> = rows.iter().filter(|row| row.contains("-pair-")).collect();
        assert_eq!(pairs, ["trap month-pair-done 1"]);
    }

    fn assert_target_traps(journal: &str, traps: &[&str]) {
        assert_traps_named("trap target-", journal, traps);
    }

    /// Checks the traps of each journal after an Open.
    fn assert_target_traps_of(journals: &[(&str, &[&str])]) {
        for (journal, traps) in journals {
            assert_target_traps(&format!("open 2 1 0\n{journal}\n"), traps);
        }
    }

    #[test]
    fn the_traps_of_targets_with_a_short_list_are_counted() {
        assert_target_traps_of(&[
            ("target 1999 1999 5 9", &["5-early-not-23"]),
            ("target 1992 1999 47 9", &["5-early-not-23"]),
            ("target 1991 1999 47 9", &[]),
            ("target 2179 2179 5 9", &["5-late-not-23"]),
            ("target 1999 2000 5 9", &[]),
            ("target 2000 2009 59 9", &["5-many-not-23"]),
            (
                "target 2000 2008 48 9",
                &["5-many-not-23", "5-nine-of-48-not-23"],
            ),
            (
                "target 2170 2178 53 9",
                &["5-many-not-23", "5-nine-of-53-not-23"],
            ),
            (
                "target 2000 2178 1073 9",
                &["5-many-not-23", "5-179-years-of-1073-not-23"],
            ),
            ("target 2000 2682 4096 9", &["5-683-years-of-4096-not-23"]),
            ("target 2000 2000 0 0", &["5-one-of-0"]),
            ("target 2178 2178 5 9", &["5-one-of-5"]),
            ("target 2000 2000 5 111", &["5-one-of-5", "5-fill-of-day"]),
            ("target 2171 2178 47 9", &["5-eight-of-47"]),
            ("target 2171 2178 46 9", &[]),
        ]);
    }

    #[test]
    fn the_traps_of_targets_with_too_many_years_for_a_word_are_counted() {
        assert_target_traps_of(&[
            (
                "target 0 18446744073709551615 4096 9",
                &["5-all-numbers-of-4096-not-23"],
            ),
            (
                "target 0 18446744073709551615 0 9",
                &["5-all-numbers-of-0-not-23"],
            ),
            ("target 0 18446744073709551615 48 9", &[]),
            (
                "target 0 18446744073709551614 48 9",
                &["5-sixfold-passes-not-23"],
            ),
            // 2^64 / 6 is 3,074,457,345,618,258,602 and two thirds.
            (
                "target 0 3074457345618258601 48 9",
                &["5-sixfold-fits-not-23"],
            ),
            (
                "target 1 3074457345618258603 2 9",
                &["5-sixfold-passes-not-23", "5-sixfold-wraps-not-23"],
            ),
            (
                "target 1 3074457345618258603 1 9",
                &["5-sixfold-passes-not-23"],
            ),
            ("target 2000 4294969295 0 9", &["5-sixfold-wraps-32-not-23"]),
            ("target 2000 4294969294 0 9", &[]),
        ]);
    }

    #[test]
    fn the_traps_of_targets_with_wrong_years_are_counted() {
        assert_target_traps_of(&[
            ("target 1999 1999 6 9", &["23-year-1999"]),
            ("target 2179 2179 9 9", &["23-year-2179"]),
            ("target 1998 1998 6 9", &[]),
            ("target 1999 2001 18 9", &["23-1999-to-2001"]),
            ("target 1999 2006 48 9", &["23-1999-to-2006"]),
            ("target 2172 2179 48 9", &["23-2172-to-2179"]),
            ("target 2001 2009 54 9", &["23-nine-of-54"]),
            ("target 2001 2009 55 9", &[]),
            ("target 2000 2178 1074 9", &["23-179-years-of-1074"]),
            ("target 2000 2681 4096 9", &["23-682-years-of-4096"]),
            (
                "target 2002 2000 0 9",
                &["23-reversed-of-0", "23-reversed-inside-of-0"],
            ),
            (
                "target 2001 2000 0 9",
                &["23-reversed-by-1-of-0", "23-reversed-inside-of-0"],
            ),
            ("target 1 0 0 9", &["23-reversed-by-1-of-0"]),
            (
                "target 18446744073709551615 0 0 9",
                &["23-reversed-of-0", "23-reversed-most-of-0"],
            ),
            ("target 18446744073709551615 0 12 9", &[]),
            ("target 2007 2000 47 9", &[]),
            ("target 2007 2000 48 9", &["23-reversed-enough"]),
        ]);
    }

    #[test]
    fn the_traps_of_targets_that_are_done_are_counted() {
        assert_target_traps_of(&[
            ("target 2010 2010 6 9", &["one-of-6"]),
            ("target 2010 2010 7 9", &["one-of-7"]),
            ("target 2010 2010 8 9", &[]),
            ("target 2010 2017 48 9", &["eight-of-48"]),
            ("target 2010 2017 49 9", &["eight-of-49"]),
            ("target 2010 2017 4096 9", &["eight-of-4096"]),
            (
                "target 2000 2000 6 9",
                &["one-of-6", "year-2000", "epact-2000"],
            ),
            ("target 2178 2178 8 9", &["year-2178"]),
            ("target 2000 2007 50 9", &["2000-to-2007", "epact-2000"]),
            ("target 2171 2178 50 9", &["2171-to-2178"]),
            ("target 2044 2049 36 9", &["epact-2049"]),
            ("target 2076 2077 12 9", &["epact-2076"]),
            ("target 2100 2106 42 9", &["epact-2106", "century-2100"]),
            ("target 2133 2133 9 9", &["epact-2133"]),
            // 1 January 2011 is day 4,018.
            ("target 2010 2010 8 4018", &["fill-of-next-day"]),
            ("target 2011 2011 8 4018", &["fill-of-day"]),
            ("target 2010 2011 12 4018", &[]),
        ]);
    }

    #[test]
    fn the_traps_of_targets_in_turn_are_counted() {
        let (two, one) = ("target 2010 2011 12 9\n", "target 2012 2012 8 9\n");
        assert_target_traps_of(&[
            (&format!("{two}{one}"), &["fewer-days"]),
            (&format!("{one}{two}"), &[]),
            (&format!("{two}look 0\n{one}"), &[]),
            (
                &format!("{two}target 2012 2012 5 9"),
                &["5-one-of-5", "5-after-done"],
            ),
            (&format!("{two}target 1998 1998 6 9"), &["23-after-done"]),
            (
                &format!("{two}target 1998 1998 5 9\ntarget 1998 1998 6 9"),
                &["5-early-not-23", "5-after-done"],
            ),
        ]);
        assert_target_traps("target 2012 2012 8 9\n", &["before-open"]);
        assert_target_traps("target 1998 1998 8 9\n", &["refused-before-open"]);
        assert_target_traps("open 2 2 0\ntarget 2012 2012 8 9\n", &[]);
    }

    #[test]
    fn all_years_are_counted_once() {
        let all: String = (0..60)
            .map(|third| 2_000 + 3 * third)
            .map(|first| format!("target {first} {} 18 9\n", 2_178.min(first + 2)))
            .collect();
        let is_counted = |journal: &str| {
            let rows = met(journal.as_bytes());
            rows.contains(&"trap target-all-years 1".to_string())
        };
        assert!(is_counted(&all));
        assert!(is_counted(&all.repeat(2)));
        let (_, most) = all.split_once('\n').unwrap();
        assert!(!is_counted(most));
    }

    #[test]
    fn a_target_between_two_calls_is_counted() {
        let done = "target 2010 2010 8 9\n";
        for (journal, traps) in [
            (
                format!("status 0\n{done}deliver 0 1\n"),
                &["between", "then-deliver"][..],
            ),
            (
                format!("status 0\n{done}{done}cancel 0 0\n"),
                &["between", "then-cancel"],
            ),
            (format!("{done}account 0\n"), &["between", "then-account"]),
            (format!("{done}account 3\n"), &[]),
            (format!("{done}look 0\n"), &["between", "then-look"]),
            (format!("{done}look 1\n"), &[]),
            (format!("{done}again 1152 0\n"), &["between", "then-again"]),
            (
                format!("{done}close 1 1152 0\n"),
                &["between", "then-close"],
            ),
            (format!("{done}month 0 32 0\n"), &["between", "then-month"]),
            (format!("{done}status 0\n"), &["between", "then-status"]),
            (format!("{done}status 1\n"), &[]),
            (format!("status 1\n{done}status 0\n"), &[]),
            (format!("rules\n{done}status 0\n"), &[]),
            (format!("{done}rules\nstatus 0\n"), &[]),
            (
                format!("enter 5 6 0 3 1 3\n{done}withdraw 2 5\n"),
                &["between", "then-withdraw"],
            ),
            (
                format!("enter 5 6 0 3 1 3\n{done}enter 6 5 1 3 1 3\n"),
                &["between", "then-enter"],
            ),
            (format!("enter 5 6 0 3 1 3\n{done}enter 6 5 1 4 1 3\n"), &[]),
            (
                "target 2010 2010 4 9\nstatus 0\n".to_string(),
                &["5-between", "then-status"],
            ),
            (
                "target 1998 1998 6 9\nstatus 0\n".to_string(),
                &["23-between", "then-status"],
            ),
        ] {
            assert_target_traps(&format!("open 2 1 0\n{OWED}{journal}"), traps);
        }
        let closes = "close 100000 1152 0\n".repeat(10);
        assert_target_traps(
            &format!("open 2 1 0\n{OWED}{closes}{done}offer 0 7 1 1\n"),
            &["between", "then-offer"],
        );
    }

    /// A Target for a year or eight, and an Open with the days that it writes.
    fn opened_by_target(last: u64, first_day: u64, terms: u64) -> String {
        let days = holidays::closed_days(2_010, last);
        let list: String = days.iter().map(|day| format!(" {day}")).collect();
        let count = days.len();
        format!("target 2010 {last} 60 9\nopen {first_day} {terms} {count}{list}\n")
    }

    /// Good Friday of 2010, and the Thursday before it.
    const GOOD_FRIDAY: u64 = 3_744;
    const THURSDAY: u64 = GOOD_FRIDAY - 1;

    #[test]
    fn books_opened_with_the_days_of_a_target_are_counted() {
        for (last, first_day, terms, traps) in [
            (2_010, THURSDAY, 1, &["open-one-year"][..]),
            (2_017, THURSDAY, 0, &["open-eight-years"]),
            (2_011, THURSDAY, 1, &[]),
            (2_010, THURSDAY, 2, &["open-1"]),
            (2_010, GOOD_FRIDAY, 1, &["open-11-holiday"]),
            (2_010, GOOD_FRIDAY + 1, 1, &[]),
        ] {
            let journal = opened_by_target(last, first_day, terms);
            assert_target_traps(&journal, &[&["before-open"], traps].concat());
            // A call between the two, or a list that is not the Target's.
            let apart = journal.replace("open", "rules\nopen");
            assert_target_traps(&apart, &["before-open"]);
            let years = [(2_010, last), (2_011, last + 1)].map(|(a, b)| format!("target {a} {b}"));
            let other = journal.replace(&years[0], &years[1]);
            assert_target_traps(&other, &["before-open"]);
        }
    }

    #[test]
    fn holidays_in_the_life_of_a_book_are_counted() {
        let opened = opened_by_target(2_010, THURSDAY, 1);
        let (pair, close) = (
            "enter 0 1 0 3 1000 3743\nenter 1 0 1 3 1000 3743\n",
            "close 100000 1152 1\n",
        );
        let assert_life = |journal: &str, traps: &[&str]| {
            let first = ["before-open", "open-one-year"];
            let journal = format!("rate {THURSDAY} 0\n{journal}");
            assert_target_traps(&format!("{opened}{journal}"), &[&first, traps].concat());
            // The same days without a Target before them.
            let (_, untold) = opened.split_once('\n').unwrap();
            assert_target_traps(&format!("{untold}{journal}"), &[]);
        };
        assert_life("enter 0 1 0 3 1000 3744\n", &["open-enter-11-holiday"]);
        assert_life("enter 0 1 0 3 1000 3745\n", &[]);
        assert_life(close, &["open-close-over-holiday"]);
        assert_life(
            &format!("{pair}{}", close.repeat(8)),
            &["open-close-over-holiday", "open-notice-over-holiday"],
        );
        assert_life(
            &format!("{pair}{}", close.repeat(14)),
            &[
                "open-close-over-holiday",
                "open-notice-over-holiday",
                "open-compensated-over-holiday",
            ],
        );
        // The days of a book that is gone close nothing.
        assert_life(
            "open 3743 1 0\nenter 0 1 0 3 1000 3742\nrate 3743 1\nclose 1 1152 0\n",
            &[],
        );
    }

    #[test]
    fn rates_without_a_place_are_counted() {
        let ahead: String = (3..18).map(|day| format!("rate {day} 1\n")).collect();
        for (calls, trap) in [("", "25-of-15"), ("rate 2 1\n", "25-of-16")] {
            let journal = format!("{ahead}{calls}rate 18 1\nrate 17 1\n");
            assert_traps_named("trap rate-", &journal, &[trap]);
        }
    }

    #[test]
    fn own_answers_show_no_difference() {
        for journal in [
            &b""[..],
            b"rules\n",
            b"rules",
            b"# x",
            b"look 0\nlook 32\nx\n",
        ] {
            assert_eq!(difference(journal, &answers(journal)), None, "{journal:?}");
        }
    }

    #[test]
    fn the_end_is_compared() {
        let edition = format!("0 {EDITION}\n");
        let missing = difference(b"rules\n", &edition).unwrap();
        assert_eq!(
            missing,
            "line 1: (the end of the journal)\nexpected: end 1\ngiven:    (nothing)\n\
            The last line of the answers is missing.\n"
        );
        assert!(difference(b"", "").unwrap().contains("is missing"));
        assert!(difference(b"rules\n", &format!("{edition}end 1"))
            .unwrap()
            .ends_with("given:    end 1 (and no line feed)\n"));
        for given in [
            format!("{edition}end 0\n"),
            format!("{edition}end 2\n"),
            format!("{edition}end 1\n\n"),
            format!("0 {}\nend 1\n", EDITION + 1),
            "end 1\n".to_string(),
        ] {
            assert!(difference(b"rules\n", &given).is_some(), "{given:?}");
        }
    }

    /// Two obligations that member 0 is late with, so that Look is free to name either.
    const LATE: &str = "open 2 1 0\nrate 2 0\nenter 0 1 0 3 1000 2\nenter 1 0 1 3 1000 2\n\
        enter 0 1 0 4 1000 2\nenter 1 0 1 4 1000 2\nclose 100000 1152 1\n";

    #[test]
    fn a_torn_look_has_no_free_choice() {
        let journal = format!("{LATE}look 0\nlook 0");
        let expected = answers(journal.as_bytes());
        assert!(expected.ends_with("\n0 1\n? line 9\nend 9\n"));
        let other = expected.replace("\n0 1\n? line 9\n", "\n0 2\n? line 9\n");
        assert_eq!(difference(journal.as_bytes(), &other), None);
        let played = expected.replace("? line 9", "0 2");
        assert!(difference(journal.as_bytes(), &played)
            .unwrap()
            .starts_with("line 9: look 0 (and no line feed)\nexpected: ? line 9\n"));
    }

    #[test]
    fn the_lines_of_an_again_are_compared() {
        let journal = format!("{LATE}again 1152 0\n");
        let expected = answers(journal.as_bytes());
        let lines = "0 2\n  1 0 3 0 0 0\n  1 1 4 0 0 0\n  kept 1140\n";
        assert!(expected.ends_with(&format!("{lines}{lines}end 8\n")));
        for (right, wrong) in [
            ("0 2\n", "0 1\n"),
            ("  1 1 4", "  1 1 3"),
            ("kept 1140", "kept 1139"),
        ] {
            let (start, end) = expected.rsplit_once(right).unwrap();
            let shown = difference(journal.as_bytes(), &format!("{start}{wrong}{end}")).unwrap();
            assert!(shown.starts_with("line 8: again 1152 0\n"), "{shown}");
        }
    }

    /// Gives its bytes, then fails.
    struct Broken<'a>(&'a [u8]);

    impl Read for Broken<'_> {
        fn read(&mut self, buffer: &mut [u8]) -> io::Result<usize> {
            match self.0.read(buffer)? {
                0 => Err(io::ErrorKind::Other.into()),
                read => Ok(read),
            }
        }
    }

    #[test]
    fn after_a_failed_read_the_answers_so_far_are_written() {
        let mut run = Run::new(Broken(b"rules\nx\nopen 9 1 0"), CallSet::all());
        let mut out = Vec::new();
        assert!(run.play_all(&mut out).is_err());
        assert_eq!(out, format!("0 {EDITION}\n? line 2\n").as_bytes());
        assert_eq!(run.player.book.today, 2);
    }

    /// Takes so many bytes, then fails; what is taken is kept.
    struct Full(usize, Vec<u8>);

    impl Write for Full {
        fn write(&mut self, bytes: &[u8]) -> io::Result<usize> {
            let room = self.0 - self.1.len();
            if room == 0 {
                return Err(io::ErrorKind::Other.into());
            }
            let taken = bytes.len().min(room);
            self.1.extend_from_slice(&bytes[..taken]);
            Ok(taken)
        }

        fn flush(&mut self) -> io::Result<()> {
            Ok(())
        }
    }

    #[test]
    fn after_a_failed_write_nothing_is_played_or_written() {
        // The first block of the journal is answered by more than one block of answers.
        let journal = "month 0 4096 18446744073709551615\n".repeat(10) + "open 9 1 0\n";
        let all = answers(journal.as_bytes());
        for room in [0, 1, 70_000] {
            let (mut run, mut full) = (run_of(journal.as_bytes()), Full(room, Vec::new()));
            assert!(run.play_all(&mut full).is_err());
            assert_eq!(full.1, all.as_bytes()[..room]);
            assert_eq!(run.player.book.today, 2);
        }
        // Room for all but the line feed of the last line.
        let mut full = Full(all.len() - 1, Vec::new());
        assert!(run_of(journal.as_bytes()).play_all(&mut full).is_err());
        let mut fits = Full(all.len(), Vec::new());
        run_of(journal.as_bytes()).play_all(&mut fits).unwrap();
        assert_eq!(fits.1, all.as_bytes());
    }
}
