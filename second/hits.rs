//! Counting which answers a journal reached.

use std::fmt::Write;

use crate::book::{Accounts, Book, Refusal, MAX_ROWS};
use crate::journal::{Call, CallSet, NAMES, RULES};
use crate::month_traps::MonthTraps;
use crate::play::Player;
use crate::target_traps::TargetTraps;
use crate::traps::Traps;
use crate::turn_traps::TurnTraps;

/// The answer numbers that each call can give, in the order of the names.
const ANSWERS: [&[Refusal]; NAMES.len()] = [
    &[0, 1, 4, 11],
    &[0, 1, 2, 3, 11, 12],
    &[0, 1, 13, 14],
    &[0, 1, 13, 14, 15],
    &[0, 2, 13, 15, 16],
    &[0, 1, 2, 3, 13, 15, 16, 17, 18],
    &[0, 3, 5, 20, 26],
    &[0, 5, 19, 21],
    &[0, 13],
    &[0, 1],
    &[0, 1],
    &[0, 5, 22],
    &[0, 5, 23],
    &[0, 3, 24, 25],
    &[0],
];
const OFFER: usize = 5;
const CLOSE: usize = 6;
const MONTH: usize = 7;
const AGAIN: usize = 11;
const TARGET: usize = 12;
const RATE: usize = 13;

/// A call that was played.
pub struct Played<'a> {
    pub call: &'a Call<'a>,
    /// The call's place among the names.
    pub place: usize,
    pub answer: Refusal,
    /// The accounts and the day just before the call.
    pub accounts: &'a Accounts,
    pub today: u64,
    /// The book after it.
    pub book: &'a Book,
}

/// What a torn last line says, though it is no call.
#[derive(Clone, Copy)]
pub enum Torn {
    Call,
    NoCall,
    TooLong,
    Comment,
}

/// The names of these, in their order.
const TORN: [&str; 4] = ["call", "no-call", "too-long", "comment"];

pub struct Hits {
    answers: [[u64; 32]; NAMES.len()],
    /// How many lines of each kind the Closes reported; kinds begin with 1.
    kinds: [u64; 5],
    again_traps: Traps,
    month_traps: MonthTraps,
    target_traps: TargetTraps,
    turn_traps: TurnTraps,
    /// How many Rates were refused by 25 with 15 rows held, and with 16.
    no_place: [u64; 2],
    malformed: u64,
    torn: [u64; TORN.len()],
    whole: u64,
    ends: u64,
}

impl Hits {
    pub fn new() -> Self {
        Hits {
            answers: [[0; 32]; NAMES.len()],
            kinds: [0; 5],
            again_traps: Traps::default(),
            month_traps: MonthTraps::default(),
            target_traps: TargetTraps::new(),
            turn_traps: TurnTraps::new(),
            no_place: [0; 2],
            malformed: 0,
            torn: [0; TORN.len()],
            whole: 0,
            ends: 0,
        }
    }

    /// Has a call played and counts it.
    pub fn play(&mut self, player: &mut Player, call: Call, out: &mut Vec<u8>) {
        // The call may change the accounts and the day, and the traps go by what they were before it.
        let (accounts, today) = (player.book.accounts, player.book.today);
        let answer = player.play(call, out);
        self.call(&Played {
            call: &call,
            place: index(&call),
            answer,
            accounts: &accounts,
            today,
            book: &player.book,
        });
    }

    fn call(&mut self, played: &Played) {
        let &Played {
            call,
            place,
            answer,
            accounts,
            ..
        } = played;
        let lines = played.book.lines_to_show();
        self.answers[place][usize::from(answer)] += 1;
        if place == CLOSE && answer == 0 {
            for line in lines {
                self.kinds[line[0] as usize] += 1;
            }
        }
        if place == RATE && answer == 25 {
            self.no_place[usize::from(played.book.rows.len() == MAX_ROWS)] += 1;
        }
        self.again_traps.call(place, call, answer, lines.len());
        self.month_traps.call(call, answer, accounts);
        self.target_traps.call(played);
        self.turn_traps.call(played);
    }

    /// A whole line that is no call; the torn ones are counted apart.
    pub fn malformed(&mut self) {
        self.malformed += 1;
    }

    pub fn torn(&mut self, says: Torn) {
        self.torn[says as usize] += 1;
    }

    /// The line `end`, after a last line that is whole or not; a text of no lines has none.
    pub fn end(&mut self, last_is_whole: bool) {
        self.ends += 1;
        self.whole += u64::from(last_is_whole);
    }

    /// One line for each pair of a call and an answer it can give, also for those not reached,
    /// for the kinds of a Close's lines and the traps of Again, Month, Target, auctions and Rate, and for the
    /// lines that are no calls and the ways in which a journal can end.
    pub fn table(&self, calls: &CallSet) -> String {
        let mut table = String::new();
        let mut row =
            |row: std::fmt::Arguments| writeln!(table, "{row}").expect("a String takes all");
        for (call, answers) in ANSWERS
            .iter()
            .enumerate()
            .filter(|&(call, _)| calls.has(call))
        {
            for &answer in *answers {
                let count = self.answers[call][usize::from(answer)];
                row(format_args!("{} {answer} {count}", NAMES[call]));
            }
        }
        if calls.has(CLOSE) {
            for (kind, count) in self.kinds.iter().enumerate().skip(1) {
                row(format_args!("kind {kind} {count}"));
            }
        }
        for (trap, count) in self.trap_rows(calls) {
            row(format_args!("trap {trap} {count}"));
        }
        row(format_args!("malformed {}", self.malformed));
        for (says, count) in TORN.iter().zip(self.torn) {
            row(format_args!("torn {says} {count}"));
        }
        row(format_args!("whole last line {}", self.whole));
        row(format_args!("end {}", self.ends));
        table
    }

    /// The traps of the calls that exist, with their counts. An auction needs an Offer and a Close.
    fn trap_rows(&self, calls: &CallSet) -> Vec<(&'static str, u64)> {
        let mut rows = Vec::new();
        if calls.has(AGAIN) {
            rows.extend(self.again_traps.rows());
        }
        if calls.has(MONTH) {
            rows.extend(self.month_traps.rows());
        }
        if calls.has(TARGET) {
            rows.extend(self.target_traps.rows());
        }
        if calls.has(OFFER) && calls.has(CLOSE) {
            rows.extend(self.turn_traps.rows());
        }
        if calls.has(RATE) {
            let names = ["rate-25-of-15", "rate-25-of-16"];
            rows.extend(names.into_iter().zip(self.no_place));
        }
        rows
    }
}

/// The names of a table of situations with their counts.
pub fn rows_of<'a, F>(
    traps: &'static [(&'static str, F)],
    counts: &'a [u64],
) -> impl Iterator<Item = (&'static str, u64)> + 'a {
    let names = traps.iter().map(|&(name, _)| name);
    names.zip(counts.iter().copied())
}

/// The call's place among the names.
fn index(call: &Call) -> usize {
    match call {
        Call::Open { .. } => 0,
        Call::Enter { .. } => 1,
        Call::Withdraw { .. } => 2,
        Call::Cancel { .. } => 3,
        Call::Deliver { .. } => 4,
        Call::Offer { .. } => OFFER,
        Call::Close { .. } => CLOSE,
        Call::Month { .. } => MONTH,
        Call::Status { .. } => 8,
        Call::Account { .. } => 9,
        Call::Look { .. } => 10,
        Call::Again { .. } => AGAIN,
        Call::Target { .. } => TARGET,
        Call::Rate { .. } => RATE,
        Call::Rules => RULES,
    }
}

#[cfg(test)]
mod tests {
    use super::*;

    /// The rows of the table that were met.
    fn met(hits: &Hits, calls: &CallSet) -> Vec<String> {
        let table = hits.table(calls);
        let rows = table.lines().filter(|row| !row.ends_with(" 0"));
        rows.map(str::to_string).collect()
    }

    #[test]
    fn what_is_met_is_counted() {
        let mut hits = Hits::new();
        assert_eq!(met(&hits, &CallSet::all()), [""; 0]);
        hits.play(&mut Player::new(), Call::Rules, &mut Vec::new());
        hits.play(&mut Player::new(), Call::Rules, &mut Vec::new());
        hits.malformed();
        for says in [Torn::Call, Torn::NoCall, Torn::TooLong, Torn::Comment] {
            hits.torn(says);
        }
        hits.torn(Torn::Comment);
        hits.end(false);
        hits.end(true);
        let rows = [
            "rules 0 2",
            "malformed 1",
            "torn call 1",
            "torn no-call 1",
            "torn too-long 1",
            "torn comment 2",
            "whole last line 1",
            "end 2",
        ];
        assert_eq!(met(&hits, &CallSet::all()), rows);
        let calls = CallSet::listed("open").unwrap();
        assert_eq!(met(&hits, &calls), rows[1..]);
    }

    #[test]
    fn what_is_not_met_is_listed() {
        let table = Hits::new().table(&CallSet::all());
        for row in [
            "again 22 0",
            "rules 0 0",
            "kind 4 0",
            "trap again-192-lines 0",
            "trap month-empty-large 0",
            "trap month-pair-21 0",
            "target 23 0",
            "trap target-all-years 0",
            "trap target-open-eight-years 0",
            "trap turn-64-of-64 0",
            "trap turn-then-again 0",
            "trap rate-25-of-15 0",
            "torn comment 0",
            "end 0",
        ] {
            assert!(table.lines().any(|line| line == row), "{row}");
        }
    }

    #[test]
    fn a_call_that_is_not_listed_has_no_traps() {
        for (list, traps) in [
            ("open,close,rules", [false, false, false, false, false]),
            ("open,close,again", [true, false, false, false, false]),
            ("open,close,month", [false, true, false, false, false]),
            ("open,close,target", [false, false, true, false, false]),
            ("open,close,offer", [false, false, false, true, false]),
            ("open,close,rate", [false, false, false, false, true]),
            ("open,offer", [false, false, false, false, false]),
        ] {
            let calls = CallSet::listed(list).unwrap();
            let table = Hits::new().table(&calls);
            let listed = ["again", "month", "target", "turn", "rate"]
                .map(|name| table.contains(&format!("trap {name}-")));
            assert_eq!(listed, traps, "{list}");
        }
    }
}
