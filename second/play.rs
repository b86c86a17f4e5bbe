//! Playing calls on one book and writing their answers (the journal format, "Lines out").

use crate::book::{Book, Refusal, LINE_WORDS};
use crate::holidays;
use crate::journal::Call;

/// The edition of the rules: the number of the latest change request in them, 0 for the base.
/// Everything else takes it from here.
pub const EDITION: u64 = 5;

/// A book and the lists that are lent to its calls.
pub struct Player {
    pub book: Book,
    lent: Vec<u64>,
}

impl Player {
    /// Before the first Open the book is the one that a refused Open returns.
    pub fn new() -> Self {
        Player {
            book: Book::of_refused_open(),
            lent: Vec::new(),
        }
    }

    /// Plays a call, writes its answer and returns the answer number.
    pub fn play(&mut self, call: Call, out: &mut Vec<u8>) -> Refusal {
        let book = &mut self.book;
        match call {
            Call::Open {
                first_day,
                terms,
                closed,
            } => {
                let opened = Book::open(first_day, terms, closed);
                let answer =
                    put_results(out, opened.as_ref().map(|_| []).map_err(|&number| number));
                *book = opened.unwrap_or_else(|_| Book::of_refused_open());
                answer
            }
            Call::Enter {
                member,
                other,
                side,
                quantity,
                amount,
                day,
            } => {
                let entered = book.enter(member, other, side, quantity, amount, day);
                put_results(out, entered.map(|(leg, obligation)| [leg, obligation]))
            }
            Call::Withdraw { leg, member } => {
                put_results(out, book.withdraw(leg, member).map(|()| []))
            }
            Call::Cancel { obligation, member } => {
                put_results(out, book.cancel(obligation, member).map(|moved| [moved]))
            }
            Call::Deliver {
                obligation,
                quantity,
            } => put_results(out, book.deliver(obligation, quantity).map(|cash| [cash])),
            Call::Offer {
                obligation,
                supplier,
                quantity,
                price,
            } => put_results(
                out,
                book.offer(obligation, supplier, quantity, price)
                    .map(|()| []),
            ),
            Call::Close { price, words, fill } => self.close(price, words, fill, out),
            Call::Month {
                collected,
                places,
                fill,
            } => self.month(collected, places, fill, out),
            Call::Status { obligation } => put_results(out, book.status(obligation)),
            Call::Account { member } => put_account(out, book.account(member)),
            Call::Look { member } => put_results(out, book.look(member).map(|found| [found])),
            Call::Again { words, fill } => self.again(words, fill, out),
            Call::Target {
                first,
                last,
                words,
                fill,
            } => self.target(first, last, words, fill, out),
            Call::Rate { day, rate } => put_results(out, book.rate(day, rate).map(|()| [])),
            Call::Rules => put_results(out, Ok([EDITION])),
        }
    }

    fn lend(&mut self, length: usize, fill: u64) {
        self.lent.clear();
        self.lent.resize(length, fill);
    }

    fn close(&mut self, price: u64, words: usize, fill: u64, out: &mut Vec<u8>) -> Refusal {
        self.lend(words, fill);
        let closed = self.book.close(price, &mut self.lent);
        put_lines(out, closed, &self.lent, fill)
    }

    fn again(&mut self, words: usize, fill: u64, out: &mut Vec<u8>) -> Refusal {
        self.lend(words, fill);
        let shown = self.book.again(&mut self.lent);
        put_lines(out, shown, &self.lent, fill)
    }

    fn month(&mut self, collected: &[u64], places: usize, fill: u64, out: &mut Vec<u8>) -> Refusal {
        self.lend(places, fill);
        let answer = self
            .book
            .month(collected, &mut self.lent)
            .err()
            .unwrap_or(0);
        put_number(out, answer.into());
        put_words(out, &self.lent);
        out.push(b'\n');
        answer
    }

    /// P3: the count, and all words of the list as the call left them. The book has no part in it.
    fn target(
        &mut self,
        first: u64,
        last: u64,
        words: usize,
        fill: u64,
        out: &mut Vec<u8>,
    ) -> Refusal {
        self.lend(words, fill);
        let written = holidays::target(first, last, &mut self.lent);
        let answer = written.err().unwrap_or(0);
        put_number(out, answer.into());
        put_words(out, &[written.unwrap_or(0) as u64]);
        put_words(out, &self.lent);
        out.push(b'\n');
        answer
    }
}

/// Writes a line of the answer number and the results, which are zeros for a refused call.
fn put_results<const N: usize>(out: &mut Vec<u8>, results: Result<[u64; N], Refusal>) -> Refusal {
    let (answer, words) = match results {
        Ok(words) => (0, words),
        Err(number) => (number, [0; N]),
    };
    put_number(out, answer.into());
    put_words(out, &words);
    out.push(b'\n');
    answer
}

/// Writes the answer of a Close or an Again: the number of lines, the lines at the front of the list
/// that was lent, and how many words after them are still the fill.
fn put_lines(out: &mut Vec<u8>, count: Result<usize, Refusal>, list: &[u64], fill: u64) -> Refusal {
    let answer = put_results(out, count.map(|count| [count as u64]));
    let (lines, rest) = list.split_at(count.unwrap_or(0) * LINE_WORDS);
    for line in lines.chunks(LINE_WORDS) {
        out.push(b' ');
        put_words(out, line);
        out.push(b'\n');
    }
    let kept = rest.iter().filter(|&&word| word == fill).count();
    out.extend_from_slice(b"  kept");
    put_words(out, &[kept as u64]);
    out.push(b'\n');
    answer
}

fn put_account(out: &mut Vec<u8>, account: Result<i64, Refusal>) -> Refusal {
    let answer = account.err().unwrap_or(0);
    let cents = account.unwrap_or(0);
    put_number(out, answer.into());
    out.extend_from_slice(if cents < 0 { b" -" } else { b" " });
    put_number(out, cents.unsigned_abs());
    out.push(b'\n');
    answer
}

/// Writes each word with a space before it.
fn put_words(out: &mut Vec<u8>, words: &[u64]) {
    for &word in words {
        out.push(b' ');
        put_number(out, word);
    }
}

/// Writes a number in base ten.
pub fn put_number(out: &mut Vec<u8>, mut number: u64) {
    let mut digits = [0; 20];
    let mut start = digits.len();
    loop {
        start -= 1;
        digits[start] = b'0' + (number % 10) as u8;
        number /= 10;
        if number == 0 {
            break;
        }
    }
    out.extend_from_slice(&digits[start..]);
}

#[cfg(test)]
mod tests {
    use super::*;
    use crate::journal::{parse, CallSet};

    fn answers(journal: &str) -> String {
        let mut player = Player::new();
        let (mut numbers, mut out) = (Vec::new(), Vec::new());
        for line in journal.lines() {
            let call = parse(line.as_bytes(), &CallSet::all(), &mut numbers);
            player.play(call.expect("a call"), &mut out);
        }
        String::from_utf8(out).expect("plain ASCII")
    }

    #[test]
    fn each_call_accepted() {
        let journal =
            "open 2 1 1 9\nenter 0 1 0 3 1000 2\nenter 1 0 1 3 1000 2\nenter 1 0 1 3 1000 2\n\
            withdraw 2 1\ncancel 0 0\ndeliver 0 1\nrate 2 100\nclose 100000 1160 9\nstatus 0\naccount 0\n\
            account 1\naccount 2\nlook 0\nlook 1\nagain 1152 3\n";
        let expected =
            "0\n0 0 0\n0 1 1\n0 2 0\n0\n0 0\n0 333\n0\n0 1\n  1 0 2 20 0 0\n  kept 1154\n\
            0 3 1 0 0 0 2\n0 -20\n0 20\n0 0\n0 1\n0 0\n0 1\n  1 0 2 20 0 0\n  kept 1146\n";
        assert_eq!(answers(journal), expected);
    }

    #[test]
    fn each_call_refused() {
        let journal = "enter 0 0 0 1 1 2\nwithdraw 0 0\ncancel 0 0\ndeliver 0 0\noffer 0 0 1 1\n\
            close 1 3 0\nmonth 1 5 2 8\nmonth 0 0 8\nstatus 0\naccount 32\nlook 32\nagain 1152 7\n\
            open 2 2 0\nrate 1 0\nclose 1 1152 0\n";
        let expected =
            "1 0 0\n13\n13 0\n2 0\n13\n5 0\n  kept 3\n5 8 8\n5\n13 0 0 0 0 0 0\n1 0\n1 0\n\
            22 0\n  kept 1152\n1\n24\n26 0\n  kept 1152\n";
        assert_eq!(answers(journal), expected);
    }

    #[test]
    fn a_refused_open_ends_the_book_before_it() {
        let journal = "open 9 1 0\nenter 0 1 0 3 1000 9\nopen 9 1 1 9\nenter 0 1 0 3 1000 2\n";
        assert_eq!(answers(journal), "0\n0 0 0\n11\n0 0 0\n");
    }

    #[test]
    fn an_open_ends_the_lines_of_the_close_before_it() {
        let (close, shown) = (
            "rate 2 10\nclose 100000 1152 7\nagain 1152 0\n",
            "0\n0 0\n  kept 1152\n0 0\n  kept 1152\n",
        );
        for (open, answer) in [("open 2 1 0", 0), ("open 2 2 0", 1), ("open 0 1 0", 11)] {
            let journal = format!("{close}{open}\nagain 1152 0\nclose 1 1152 0\n{close}");
            let none = "22 0\n  kept 1152\n26 0\n  kept 1152\n";
            let expected = format!("{shown}{answer}\n{none}{shown}");
            assert_eq!(answers(&journal), expected);
        }
    }

    #[test]
    fn again_is_told_as_a_close() {
        let journal =
            "enter 0 1 0 3 1000 2\nenter 1 0 1 3 1000 2\nrate 2 100\nclose 100000 1153 9\n\
            again 1153 8\nagain 1151 8\n";
        let told = "0 1\n  1 0 3 30 0 0\n  kept 1147\n";
        let expected = format!("0 0 0\n0 1 1\n0\n{told}{told}5 0\n  kept 1151\n");
        assert_eq!(answers(journal), expected);
    }

    #[test]
    fn an_empty_month_is_told_as_a_typed_one() {
        let start = "enter 0 31 0 3 1000 2\nenter 31 0 1 3 1000 2\nmonth 0 32 8\n\
            rate 2 100\nclose 100000 1152 9\nmonth 0 0 8\nmonth 0 33 8\n";
        let (eights, zeros) = (" 8".repeat(33), " 0".repeat(32));
        let told = format!(
            "0 0 0\n0 1 1\n21{}\n0\n0 1\n  1 0 3 30 0 0\n  kept 1146\n5\n5{eights}\n",
            &eights[2..]
        );
        let paid = format!("0{} 30\n21{}\n", &zeros[2..], &eights[2..]);
        for month in [
            "month 0 32 8\n",
            &format!("month 32 30{} 32 8\n", &zeros[2..]),
        ] {
            let journal = format!("{start}{month}month 0 32 8\n");
            assert_eq!(answers(&journal), format!("{told}{paid}"));
        }
    }

    /// Plays a line and writes its answer.
    fn play_line(player: &mut Player, line: &str, out: &mut Vec<u8>) -> Refusal {
        let mut numbers = Vec::new();
        let call = parse(line.as_bytes(), &CallSet::all(), &mut numbers);
        player.play(call.expect("a call"), out)
    }

    /// A player whose book has a leg that waits.
    fn player_with_a_leg() -> Player {
        let mut player = Player::new();
        for line in ["open 9 1 0", "enter 0 1 0 3 1000 9"] {
            play_line(&mut player, line, &mut Vec::new());
        }
        player
    }

    #[test]
    fn rules_answers_the_edition_and_changes_nothing() {
        let mut player = player_with_a_leg();
        let (before, mut out) = (player.book.clone(), Vec::new());
        assert_eq!(player.play(Call::Rules, &mut out), 0);
        assert_eq!(out, format!("0 {EDITION}\n").as_bytes());
        assert_eq!(player.book, before);
    }

    #[test]
    fn a_target_shows_its_whole_list() {
        let told = [
            ("target 2000 2000 6 9", "0 6 0 111 114 121 359 360\n"),
            ("target 2000 2000 8 9", "0 6 0 111 114 121 359 360 9 9\n"),
            ("target 2000 2000 5 9", "5 0 9 9 9 9 9\n"),
            ("target 2000 2000 0 9", "5 0\n"),
            ("target 1999 1999 6 9", "23 0 9 9 9 9 9 9\n"),
            ("target 2001 2000 0 9", "23 0\n"),
            ("target 2001 2000 1 114", "23 0 114\n"),
        ];
        // Nothing of the list before is left, whatever the order.
        let lines = |one: (&str, &str), other: (&str, &str)| {
            assert_eq!(
                answers(&format!("{}\n{}\n", one.0, other.0)),
                format!("{}{}", one.1, other.1)
            );
        };
        for one in told {
            for other in told {
                lines(one, other);
            }
        }
    }

    #[test]
    fn a_target_changes_no_book() {
        let mut player = player_with_a_leg();
        let before = player.book.clone();
        for (line, answer) in [
            ("target 2000 2007 48 0", 0),
            ("target 2000 2008 48 0", 5),
            ("target 2000 2008 54 0", 23),
        ] {
            assert_eq!(play_line(&mut player, line, &mut Vec::new()), answer);
            assert_eq!(player.book, before);
        }
    }

    #[test]
    fn a_target_may_stand_before_the_first_open() {
        assert_eq!(
            answers("target 2001 2001 6 0\nenter 0 1 0 3 1000 2\n"),
            "0 6 366 468 471 486 724 725\n0 0 0\n"
        );
    }

    #[test]
    fn rules_may_stand_before_the_first_open() {
        assert_eq!(
            answers("rules\nenter 0 1 0 3 1000 2\nrules\n"),
            format!("0 {EDITION}\n0 0 0\n0 {EDITION}\n")
        );
    }

    #[test]
    fn numbers() {
        let mut out = Vec::new();
        put_words(&mut out, &[0, 9, 10, u64::MAX]);
        assert_eq!(out, b" 0 9 10 18446744073709551615");
    }
}
