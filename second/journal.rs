//! The lines of a journal as calls (the journal format, "Lines in" and "What is no call").

/// No list of a call is longer than this.
const MAX_LIST: u64 = 4_096;
/// No line of a call is longer than this, its line feed left out.
pub const MAX_LINE: usize = 65_536;

/// The names of all calls; a call is known by its place here.
pub const NAMES: [&str; 15] = [
    "open", "enter", "withdraw", "cancel", "deliver", "offer", "close", "month", "status",
    "account", "look", "again", "target", "rate", "rules",
];
/// The place of `rules`, which takes no arguments: the calls that take some stand before it. Neither
/// it nor `target` is a call on the book.
pub const RULES: usize = 14;

/// The calls that exist.
#[derive(Clone, Copy)]
pub struct CallSet([bool; NAMES.len()]);

impl CallSet {
    pub fn all() -> Self {
        CallSet([true; NAMES.len()])
    }

    /// The calls of a comma-separated list; a name that is no call's is an error.
    pub fn listed(list: &str) -> Result<Self, String> {
        let mut set = CallSet([false; NAMES.len()]);
        for name in list.split(',') {
            let call = NAMES.iter().position(|&known| known == name);
            set.0[call.ok_or_else(|| format!("no such call: {name}"))?] = true;
        }
        Ok(set)
    }

    pub fn has(&self, call: usize) -> bool {
        self.0[call]
    }
}

/// A call and its arguments.
#[derive(Clone, Copy, Debug, Hash, PartialEq)]
pub enum Call<'a> {
    Open {
        first_day: u64,
        terms: u64,
        closed: &'a [u64],
    },
    Enter {
        member: u64,
        other: u64,
        side: u64,
        quantity: u64,
        amount: u64,
        day: u64,
    },
    Withdraw {
        leg: u64,
        member: u64,
    },
    Cancel {
        obligation: u64,
        member: u64,
    },
    Deliver {
        obligation: u64,
        quantity: u64,
    },
    Offer {
        obligation: u64,
        supplier: u64,
        quantity: u64,
        price: u64,
    },
    Close {
        price: u64,
        words: usize,
        fill: u64,
    },
    Month {
        collected: &'a [u64],
        places: usize,
        fill: u64,
    },
    Status {
        obligation: u64,
    },
    Account {
        member: u64,
    },
    Look {
        member: u64,
    },
    Again {
        words: usize,
        fill: u64,
    },
    Target {
        first: u64,
        last: u64,
        words: usize,
        fill: u64,
    },
    Rate {
        day: u64,
        rate: u64,
    },
    Rules,
}

/// An empty line, and a line that starts with `#`.
pub fn is_comment(line: &[u8]) -> bool {
    matches!(line, [] | [b'#', ..])
}

/// The call of a whole line, or none if the line is no call. The arguments are put into `numbers`.
pub fn parse<'a>(line: &[u8], calls: &CallSet, numbers: &'a mut Vec<u64>) -> Option<Call<'a>> {
    if line.len() > MAX_LINE {
        return None;
    }
    let mut words = line.split(|&byte| byte == b' ');
    let name = words.next()?;
    let call = NAMES.iter().position(|known| known.as_bytes() == name)?;
    if !calls.has(call) {
        return None;
    }
    numbers.clear();
    for word in words {
        numbers.push(number(word)?);
    }
    with_arguments(NAMES[call], numbers)
}

/// An unsigned decimal number of up to 64 bits, with any leading zeros.
fn number(word: &[u8]) -> Option<u64> {
    if word.is_empty() {
        return None;
    }
    word.iter().try_fold(0u64, |value, &byte| {
        let digit = byte.is_ascii_digit().then(|| u64::from(byte - b'0'))?;
        value.checked_mul(10)?.checked_add(digit)
    })
}

/// The call with its arguments, if they are as many as it takes.
fn with_arguments<'a>(name: &str, numbers: &'a [u64]) -> Option<Call<'a>> {
    Some(match (name, numbers) {
        ("open", &[first_day, terms, n, ref closed @ ..]) if is_length(n, closed) => Call::Open {
            first_day,
            terms,
            closed,
        },
        ("enter", &[member, other, side, quantity, amount, day]) => Call::Enter {
            member,
            other,
            side,
            quantity,
            amount,
            day,
        },
        ("withdraw", &[leg, member]) => Call::Withdraw { leg, member },
        ("cancel", &[obligation, member]) => Call::Cancel { obligation, member },
        ("deliver", &[obligation, quantity]) => Call::Deliver {
            obligation,
            quantity,
        },
        ("offer", &[obligation, supplier, quantity, price]) => Call::Offer {
            obligation,
            supplier,
            quantity,
            price,
        },
        ("close", &[price, n, fill]) => Call::Close {
            price,
            words: list_length(n)?,
            fill,
        },
        ("month", &[n, ref collected @ .., p, fill]) if is_length(n, collected) => Call::Month {
            collected,
            places: list_length(p)?,
            fill,
        },
        ("status", &[obligation]) => Call::Status { obligation },
        ("account", &[member]) => Call::Account { member },
        ("look", &[member]) => Call::Look { member },
        ("again", &[n, fill]) => Call::Again {
            words: list_length(n)?,
            fill,
        },
        ("target", &[first, last, n, fill]) => Call::Target {
            first,
            last,
            words: list_length(n)?,
            fill,
        },
        ("rate", &[day, rate]) => Call::Rate { day, rate },
        ("rules", &[]) => Call::Rules,
        _ => return None,
    })
}

/// The length of a list that is not longer than 4,096 words.
fn list_length(n: u64) -> Option<usize> {
    (n <= MAX_LIST).then_some(n as usize)
}

fn is_length(n: u64, list: &[u64]) -> bool {
    list_length(n) == Some(list.len())
}

#[cfg(test)]
mod tests {
    use super::*;

    fn parsed(line: &str) -> Option<String> {
        let mut numbers = Vec::new();
        parse(line.as_bytes(), &CallSet::all(), &mut numbers).map(|call| format!("{call:?}"))
    }

    #[test]
    fn calls() {
        assert_eq!(parsed("look 007").unwrap(), "Look { member: 7 }");
        assert_eq!(
            parsed("open 2 1 2 5 9").unwrap(),
            "Open { first_day: 2, terms: 1, closed: [5, 9] }"
        );
        assert_eq!(
            parsed("month 0 32 7").unwrap(),
            "Month { collected: [], places: 32, fill: 7 }"
        );
        assert_eq!(
            parsed("month 1 9 0 18446744073709551615").unwrap(),
            "Month { collected: [9], places: 0, fill: 18446744073709551615 }"
        );
        assert_eq!(
            parsed("again 4096 7").unwrap(),
            "Again { words: 4096, fill: 7 }"
        );
        assert_eq!(
            parsed("target 2000 18446744073709551615 4096 7").unwrap(),
            "Target { first: 2000, last: 18446744073709551615, words: 4096, fill: 7 }"
        );
        assert_eq!(
            parsed("close 100000 1152 7").unwrap(),
            "Close { price: 100000, words: 1152, fill: 7 }"
        );
        assert_eq!(
            parsed("rate 65535 100").unwrap(),
            "Rate { day: 65535, rate: 100 }"
        );
        assert_eq!(parsed("rules").unwrap(), "Rules");
        assert_eq!(NAMES[RULES], "rules");
    }

    fn assert_no_calls(lines: &[&str]) {
        for line in lines {
            assert_eq!(parsed(line), None, "{line:?}");
        }
    }

    #[test]
    fn no_calls() {
        assert_no_calls(&[
            " ",
            " #",
            "look",
            "look ",
            "look 1 ",
            " look 1",
            "look  1",
            "look 1 2",
            "Look 1",
            "look\t1",
            "look 1\r",
            "look 1\0",
            "look -1",
            "look +1",
            "look 1x",
            "looks 1",
            "look 18446744073709551616",
            "look 99999999999999999999",
            "open 2 0",
            "open 2 0 1",
            "open 2 0 0 1",
            "open 2 0 18446744073709551615",
            "month 0 32",
            "month 1 32 7",
            "close 1 4097 0",
            "month 0 4097 0",
            "again",
            "again 1152",
            "again 1152 0 0",
            "again 4097 0",
            "Again 1152 0",
            "end",
            "end 1",
            "? line 1",
        ]);
    }

    #[test]
    fn an_empty_month_has_places_and_a_fill() {
        assert_no_calls(&[
            "month",
            "month 0",
            "month 0 32 ",
            "month 0  32 7",
            "month 0 32 7 7",
            "month 32 7",
            "month 32 32 7",
            "month -0 32 7",
        ]);
    }

    #[test]
    fn a_target_has_two_years_a_length_and_a_fill() {
        assert_no_calls(&[
            "target",
            "target 2000",
            "target 2000 2000",
            "target 2000 2000 6",
            "target 2000 2000 6 ",
            "target 2000  2000 6 0",
            "target 2000 2000 6 0 0",
            "target 2000 2000 2 7 7",
            "target 2000 2000 4097 0",
            "target 2000 2000 18446744073709551615 0",
            "target 18446744073709551616 2000 6 0",
            "target 2000 18446744073709551616 6 0",
            "target 2000 2000 6 18446744073709551616",
            "target 2000-2000 6 0",
            "target -2000 2000 6 0",
            "Target 2000 2000 6 0",
            "targets 2000 2000 6 0",
        ]);
    }

    #[test]
    fn a_rate_stands_in_a_row_and_not_in_a_close() {
        assert_no_calls(&[
            "close 100000 10 1152 0",
            "close 100000 1152",
            "close 100000 1152 0 ",
            "rate",
            "rate 2",
            "rate 2 ",
            "rate 2 10 10",
            "rate 2  10",
            "rate 2 18446744073709551616",
            "rate -2 10",
            "Rate 2 10",
            "rates 2 10",
        ]);
    }

    #[test]
    fn rules_takes_no_argument() {
        assert_no_calls(&[
            "rules 0", "rules ", " rules", "rules\r", "rules\0", "Rules", "rule",
        ]);
    }

    #[test]
    fn calls_of_later_editions_are_none() {
        assert_no_calls(&["cause 0 1", "pair 0 1", "report 100 0", "defer 0 1"]);
    }

    #[test]
    fn limits() {
        let list = |n: usize| format!("open 2 0 {n}{}", " 9".repeat(n));
        assert!(parsed(&list(4_096)).is_some());
        assert!(parsed(&list(4_097)).is_none());
        let long = |length: usize| format!("look {}", "0".repeat(length - 5));
        assert!(parsed(&long(MAX_LINE)).is_some());
        assert!(parsed(&long(MAX_LINE + 1)).is_none());
    }

    #[test]
    fn only_listed_calls() {
        let calls = CallSet::listed("open,look").unwrap();
        let mut numbers = Vec::new();
        assert!(parse(b"look 1", &calls, &mut numbers).is_some());
        assert!(parse(b"account 1", &calls, &mut numbers).is_none());
        assert!(parse(b"target 2000 2000 6 0", &calls, &mut numbers).is_none());
        let calls = CallSet::listed("target").unwrap();
        assert!(parse(b"target 2000 2000 6 0", &calls, &mut numbers).is_some());
        assert!(CallSet::listed("open,lok").is_err());
    }
}
