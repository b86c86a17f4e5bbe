//! The situations in which an auction with equal prices is easily answered wrongly since P4, and how often
//! a journal met each.

use std::iter::once;

use crate::auction::{falling, Auction, Bid, Group, Key};
use crate::book::{place, within_cap, Offer, Refusal, MAX_OFFERS, TERMS};
use crate::hits::{rows_of, Played};
use crate::journal::Call;

/// About so many calls of a day are kept, and all offers that are accepted. It bounds the memory.
const KEPT: usize = 1_000;
/// Library sorts often treat up to about twenty elements in a way that keeps ties in their order. With more
/// than 32 offers it shows if a sort does not.
const CROWD: usize = 32;

/// The name of a situation, and whether an auction is in it.
type Trap = (&'static str, fn(&Asked) -> bool);

const TRAPS: [Trap; 65] = [
    // The quantities at one price rise, fall or are equal: one offer is wanted, or the first and a part of
    // the second, or all.
    ("turn-rising-one", |a| {
        a.any(|g| g.is_rising() && g.wants_one())
    }),
    ("turn-rising-part", |a| {
        a.any(|g| g.is_rising() && g.wants_part())
    }),
    ("turn-rising-all", |a| {
        a.any(|g| g.is_rising() && g.wants_all())
    }),
    ("turn-falling-one", |a| {
        a.any(|g| g.is_falling() && g.wants_one())
    }),
    ("turn-falling-part", |a| {
        a.any(|g| g.is_falling() && g.wants_part())
    }),
    ("turn-falling-all", |a| {
        a.any(|g| g.is_falling() && g.wants_all())
    }),
    ("turn-equal-one", |a| {
        a.any(|g| g.is_equal() && g.wants_one())
    }),
    ("turn-equal-part", |a| {
        a.any(|g| g.is_equal() && g.wants_part())
    }),
    ("turn-equal-all", |a| {
        a.any(|g| g.is_equal() && g.wants_all())
    }),
    // Three or more give something.
    ("turn-rise-and-fall", |a| {
        a.any(|g| g.rises_and_falls() && g.lines() > 2)
    }),
    ("turn-fall-and-rise", |a| {
        a.any(|g| g.falls_and_rises() && g.lines() > 2)
    }),
    // Another order would give other lines.
    ("turn-not-larger-first", |a| a.shows_entry()),
    ("turn-not-smaller-first", |a| {
        a.is_not_by(|bid| (bid.offer.price, bid.offer.quantity))
    }),
    ("turn-not-later-first", |a| {
        a.is_not_by(|bid| (bid.offer.price, falling(bid.place as u64)))
    }),
    ("turn-not-dearer-first", |a| {
        a.is_not_by(|bid| (falling(bid.offer.price), 0))
    }),
    ("turn-not-entry-alone", |a| {
        a.is_not_by(|bid| (bid.place as u64, 0))
    }),
    ("turn-not-lower-supplier", |a| {
        a.is_not_by(|bid| (bid.offer.price, bid.offer.supplier))
    }),
    ("turn-not-higher-supplier", |a| {
        a.is_not_by(|bid| (bid.offer.price, falling(bid.offer.supplier)))
    }),
    ("turn-not-exchanged", |a| {
        a.has_groups() && a.auction.differs_from_exchanged()
    }),
    ("turn-more-lines", |a| {
        a.has_groups() && a.auction.has_more_lines_than_larger_first()
    }),
    // The cents of lines at one price.
    ("turn-other-cents", |a| {
        a.has_groups() && a.auction.has_other_cents_than_larger_first()
    }),
    ("turn-charge-0", |a| {
        a.any(|g| g.lines() > 1 && g.bids().any(is_below_cash))
    }),
    // Other prices beside the one.
    ("turn-cheaper-after-larger", |a| {
        a.is_cheaper_after(|dearer, new| dearer > new)
    }),
    ("turn-cheaper-after-smaller", |a| {
        a.is_cheaper_after(|dearer, new| dearer < new)
    }),
    ("turn-cheaper-after-equal", |a| {
        a.is_cheaper_after(|dearer, new| dearer == new)
    }),
    ("turn-dearer-between", |a| {
        a.is_other_between(|other, price| other > price)
    }),
    ("turn-cheaper-between", |a| {
        a.is_other_between(|other, price| other < price)
    }),
    ("turn-two-prices", |a| a.is_of_two_prices()),
    ("turn-crowd", |a| a.is_crowd()),
    ("turn-price-1", |a| a.any(|g| g.price() == 1)),
    ("turn-at-cap", |a| {
        a.any(|g| !a.is_within_cap(g.price() + 1))
    }),
    // Offers at the price for other obligations, entered in turn.
    ("turn-in-turn", |a| a.in_turn(|_, _| true) > 0),
    ("turn-in-turn-of-three", |a| a.in_turn(|_, _| true) > 1),
    ("turn-in-turn-other-shape", |a| {
        a.in_turn(have_other_shapes) > 0
    }),
    ("turn-in-turn-other-suppliers", |a| {
        a.in_turn(have_reversed_suppliers) > 0
    }),
    // Refused offers between two at one price; by 17 only after them, as the book is full then.
    ("turn-1-between", |a| a.is_refused_between(1)),
    ("turn-2-between", |a| a.is_refused_between(2)),
    ("turn-3-between", |a| a.is_refused_between(3)),
    ("turn-13-between", |a| a.is_refused_between(13)),
    ("turn-15-between", |a| a.is_refused_between(15)),
    ("turn-16-between", |a| a.is_refused_between(16)),
    ("turn-18-between", |a| a.is_refused_between(18)),
    ("turn-17-behind", |a| a.is_refused_when_full()),
    // Other calls between two offers at one price.
    ("turn-close-3-between", |a| {
        a.between(|_, step| *step == Step::RefusedClose(3))
    }),
    ("turn-close-5-between", |a| {
        a.between(|_, step| *step == Step::RefusedClose(5))
    }),
    ("turn-again-between", |a| {
        a.between(|_, step| *step == Step::Shown)
    }),
    ("turn-month-between", |a| {
        a.between(|_, step| *step == Step::Paid)
    }),
    ("turn-wish-between", |a| {
        a.between(|group, step| *step == Step::Wished(group.auction.number))
    }),
    ("turn-deliver-between", |a| {
        a.between(|group, step| matches!(step, Step::Delivered(n, _) if *n == group.auction.number))
    }),
    ("turn-emptied-between", |a| a.is_other_emptied_between()),
    ("turn-deliver-behind", |a| a.is_delivered_behind()),
    // A whole book of offers at one price for one obligation, the quantities rising.
    ("turn-64-of-64", |a| {
        a.any(|g| is_full(g) && g.lines() == MAX_OFFERS)
    }),
    ("turn-64-of-fewer", |a| {
        a.any(|g| is_full(g) && g.lines() < MAX_OFFERS)
    }),
    ("turn-same-supplier", |a| {
        a.any(|g| has_same_supplier(g, false))
    }),
    ("turn-same-supplier-apart", |a| {
        a.any(|g| has_same_supplier(g, true))
    }),
    // Larger than all that was outstanding, or just as large as what was left.
    ("turn-large-first", |a| {
        a.any(|g| a.is_too_large(g.bid(0)) && g.wants_one())
    }),
    ("turn-large-last", |a| {
        a.any(|g| a.is_too_large(g.last()) && g.last().given > 0)
    }),
    ("turn-exhausted", |a| a.any(is_exhausted)),
    ("turn-day-after", |a| a.is_day_after()),
    // The stages at which the order before P4 would give other lines.
    ("turn-terms-0", |a| a.is_before_last(0)),
    ("turn-terms-1", |a| a.is_before_last(1)),
    ("turn-last-day-terms-0", |a| a.is_last_day(0)),
    ("turn-last-day-terms-1", |a| a.is_last_day(1)),
    ("turn-compensated-terms-0", |a| {
        a.is_last_day(0) && a.auction.compensated > 0
    }),
    ("turn-compensated-terms-1", |a| {
        a.is_last_day(1) && a.auction.compensated > 0
    }),
];

/// The row of an Again that repeats lines which the order before P4 would not give.
const AGAIN: &str = "turn-then-again";

/// Whether the value of what a bid gave is below its cash, so that the charge is 0.
fn is_below_cash(bid: &Bid) -> bool {
    bid.given * bid.offer.price < bid.cash
}

/// Whether the quantities of one group rise and those of the other fall.
fn have_other_shapes(one: &Group, other: &Group) -> bool {
    one.is_rising() && other.is_falling() || one.is_falling() && other.is_rising()
}

/// Whether the suppliers of one group are those of the other in the reverse order, which is another one.
fn have_reversed_suppliers(one: &Group, other: &Group) -> bool {
    one.suppliers().eq(other.suppliers().rev()) && !one.suppliers().eq(other.suppliers())
}

fn is_full(group: &Group) -> bool {
    group.places.len() == MAX_OFFERS && group.is_rising()
}

/// Whether a supplier has two bids of the group, at least the second of them with a line, and the lines
/// show which of the two came first. If they are to be apart, another supplier's bid stands between them.
fn has_same_supplier(group: &Group, apart: bool) -> bool {
    let suppliers: Vec<u64> = group.suppliers().collect();
    let is_met = |one: usize, other: usize| {
        let is_apart = suppliers[one..other]
            .iter()
            .any(|&between| between != suppliers[one]);
        suppliers[one] == suppliers[other]
            && is_apart == apart
            && group.bid(other).given > 0
            && group
                .auction
                .differs_if_swapped(group.places[one], group.places[other])
    };
    (0..suppliers.len()).any(|other| (0..other).any(|one| is_met(one, other)))
}

/// Whether a bid gives all it has and nothing is left for the next one of the group.
fn is_exhausted(group: &Group) -> bool {
    let bids = &group.auction.bids;
    let mut pairs = group.neighbours();
    pairs.any(|(one, next)| bids[one].is_used_up() && bids[next].given == 0)
}

/// A call since the last accepted Close that a wrong auction might go by.
#[derive(PartialEq)]
enum Step {
    Offered(Offer),
    Refused(Refusal, Offer),
    RefusedClose(Refusal),
    /// A Deliver that leaves something outstanding: the obligation and the quantity.
    Delivered(usize, u64),
    /// The first wish of an obligation.
    Wished(usize),
    /// A Deliver or a second wish that leaves nothing outstanding.
    Emptied(usize),
    /// An Again that is done.
    Shown,
    /// A Month that is done.
    Paid,
}

impl Step {
    fn of(played: &Played) -> Option<Self> {
        let emptied_or = |number: u64, step: fn(usize, u64) -> Step, quantity: u64| {
            let number = number as usize;
            let left = played.book.obligations[number].outstanding();
            Some(if left == 0 {
                Step::Emptied(number)
            } else {
                step(number, quantity)
            })
        };
        match (*played.call, played.answer) {
            (Call::Offer { .. }, answer) => Step::of_offer(played.call, answer),
            (Call::Close { .. }, answer) => Some(Step::RefusedClose(answer)),
            (
                Call::Deliver {
                    obligation,
                    quantity,
                },
                0,
            ) => emptied_or(obligation, Step::Delivered, quantity),
            (Call::Cancel { obligation, .. }, 0) => {
                emptied_or(obligation, |number, _| Step::Wished(number), 0)
            }
            (Call::Again { .. }, 0) => Some(Step::Shown),
            (Call::Month { .. }, 0) => Some(Step::Paid),
            _ => None,
        }
    }

    fn of_offer(call: &Call, answer: Refusal) -> Option<Self> {
        let &Call::Offer {
            obligation,
            supplier,
            quantity,
            price,
        } = call
        else {
            return None;
        };
        let offer = Offer {
            obligation: place(obligation),
            supplier,
            quantity,
            price,
        };
        Some(if answer == 0 {
            Step::Offered(offer)
        } else {
            Step::Refused(answer, offer)
        })
    }

    fn offered(&self) -> Option<&Offer> {
        match self {
            Step::Offered(offer) => Some(offer),
            _ => None,
        }
    }
}

/// The offers of some steps that were accepted, with their places.
fn offers_in(steps: &[Step]) -> impl Iterator<Item = (usize, &Offer)> + Clone {
    let places = steps.iter().enumerate();
    places.filter_map(|(place, step)| step.offered().map(|offer| (place, offer)))
}

/// An auction, and what stands beside it.
struct Asked<'a> {
    auction: &'a Auction<'a>,
    groups: Vec<Group<'a>>,
    /// The auctions of the Close for obligations with a higher number.
    higher: &'a [Auction<'a>],
    /// The calls of the day, and the offers of the day before.
    steps: &'a [Step],
    yesterday: &'a [Offer],
}

impl Asked<'_> {
    /// Whether there are two offers or more at one price, and the lines show their order.
    fn has_groups(&self) -> bool {
        !self.groups.is_empty()
    }

    fn any(&self, holds: impl Fn(&Group) -> bool) -> bool {
        self.groups.iter().any(holds)
    }

    /// Whether an order by the key, then by entry, would give other lines.
    fn is_not_by(&self, key: Key) -> bool {
        self.has_groups() && self.auction.differs_by(key)
    }

    /// Whether the order before P4 would give other lines.
    fn shows_entry(&self) -> bool {
        self.has_groups() && self.auction.differs_from_larger_first()
    }

    fn is_within_cap(&self, price: u64) -> bool {
        let grace_price = self.auction.obligation.grace_price;
        grace_price.is_some_and(|grace_price| within_cap(price, grace_price))
    }

    /// Whether the offer is larger than all that was outstanding.
    fn is_too_large(&self, bid: &Bid) -> bool {
        bid.offer.quantity > self.auction.obligation.outstanding()
    }

    // ------------------------------------------------------------ other prices

    /// Whether an offer came after a dearer one of a group and yet is taken before it. The relation is
    /// that of the quantities of the dearer one and the new one.
    fn is_cheaper_after(&self, relation: fn(u64, u64) -> bool) -> bool {
        let bids = &self.auction.bids;
        let is_met = |dearer: usize, new: usize| {
            bids[new].offer.price < bids[dearer].offer.price
                && relation(bids[dearer].offer.quantity, bids[new].offer.quantity)
                && self.auction.differs_if_swapped(dearer, new)
        };
        let after = |dearer: usize| (dearer + 1..bids.len()).any(|new| is_met(dearer, new));
        self.any(|group| group.places.iter().any(|&dearer| after(dearer)))
    }

    /// Whether an offer at another price, in the relation to that of the group, came between two of the
    /// group and is taken before both or after both.
    fn is_other_between(&self, relation: fn(u64, u64) -> bool) -> bool {
        let bids = &self.auction.bids;
        self.any(|group| {
            let is_met = |(one, next): (usize, usize)| {
                (one + 1..next).any(|other| {
                    relation(bids[other].offer.price, group.price())
                        && self.auction.differs_if_swapped(other, one)
                        && self.auction.differs_if_swapped(other, next)
                })
            };
            group.neighbours().any(is_met)
        })
    }

    fn is_of_two_prices(&self) -> bool {
        let in_turn = |one: &Group| {
            self.any(|other| one.price() < other.price() && one.is_in_turn_with(other))
        };
        self.any(in_turn)
    }

    /// Whether there are so many offers that a sort of another kind is likely, and groups at two prices
    /// show their order.
    fn is_crowd(&self) -> bool {
        self.auction.bids.len() > CROWD
            && self.groups.iter().filter(|group| group.lines() > 1).count() > 1
    }

    // ------------------------------------------------------------ other obligations

    /// Of how many obligations with a higher number a group is in turn with one of this auction, at the
    /// same price and in the relation given.
    fn in_turn(&self, relation: fn(&Group, &Group) -> bool) -> usize {
        let is_met = |other: &&Auction| {
            let groups = other.groups();
            self.any(|own| {
                let fits = |group: &Group| group.price() == own.price() && relation(own, group);
                groups
                    .iter()
                    .any(|group| fits(group) && own.is_in_turn_with(group))
            })
        };
        self.higher.iter().filter(is_met).count()
    }

    // ------------------------------------------------------------ between and behind

    /// Whether a call came between two offers at one price whose order the lines show.
    fn between(&self, holds: impl Fn(&Group, &Step) -> bool) -> bool {
        let bids = &self.auction.bids;
        self.any(|group| {
            let mut pairs = group.neighbours();
            pairs.any(|(one, next)| {
                let steps = &self.steps[bids[one].place..bids[next].place];
                steps.iter().any(|step| holds(group, step))
            })
        })
    }

    /// Whether an offer was refused by the number between two at one price. One that is refused for its price
    /// names the obligation of the two, one that is refused for its obligation names their price, and any
    /// other names both.
    fn is_refused_between(&self, number: Refusal) -> bool {
        self.between(|group, step| {
            let Step::Refused(by, offer) = step else {
                return false;
            };
            let same_obligation = offer.obligation == group.auction.number;
            let same_price = offer.price == group.price();
            *by == number
                && match number {
                    3 | 18 => same_obligation,
                    13 | 15 | 16 => same_price,
                    _ => same_obligation && same_price,
                }
        })
    }

    /// Whether an offer at one price was refused by 17, and would have a line if it had not been.
    fn is_refused_when_full(&self) -> bool {
        let has_group_at = |price: u64| self.any(|group| group.price() == price);
        self.steps.iter().any(|step| match step {
            Step::Refused(17, offer) => {
                offer.obligation == self.auction.number
                    && has_group_at(offer.price)
                    && self.auction.differs_with(&[], &[offer.clone()])
            }
            _ => false,
        })
    }

    /// Whether another obligation that had offers at the same price was emptied between two offers.
    fn is_other_emptied_between(&self) -> bool {
        self.between(|group, step| match step {
            Step::Emptied(number) => offers_in(self.steps)
                .any(|(_, offer)| offer.obligation == *number && offer.price == group.price()),
            _ => false,
        })
    }

    /// Whether a Deliver after all offers at one price made the lines others than they would have been.
    fn is_delivered_behind(&self) -> bool {
        let is_met = |step: &Step| match step {
            Step::Delivered(number, quantity) => {
                *number == self.auction.number && self.auction.differs_undelivered(*quantity)
            }
            _ => false,
        };
        self.any(|group| self.steps[group.last().place..].iter().any(is_met))
    }

    // ------------------------------------------------------------ days

    /// Whether two offers or more at the same price were entered on the day before, and would be taken if
    /// they were still there.
    fn is_day_after(&self) -> bool {
        let of_yesterday = self.yesterday.iter();
        let old: Vec<Offer> = of_yesterday
            .filter(|offer| offer.obligation == self.auction.number)
            .cloned()
            .collect();
        let were_two = |group: &Group| {
            old.iter()
                .filter(|offer| offer.price == group.price())
                .count()
                > 1
        };
        self.any(were_two) && self.auction.differs_with(&old, &[])
    }

    fn is_before_last(&self, terms: usize) -> bool {
        self.auction.terms == TERMS[terms]
            && self.auction.age < TERMS[terms].last
            && self.shows_entry()
    }

    fn is_last_day(&self, terms: usize) -> bool {
        self.auction.terms == TERMS[terms]
            && self.auction.age == TERMS[terms].last
            && self.shows_entry()
    }
}

/// The calls of the day and the offers of the day before, and how often each situation was met.
pub struct TurnTraps {
    steps: Vec<Step>,
    yesterday: Vec<Offer>,
    /// Whether the order before P4 would give other lines to the latest accepted Close.
    shows_entry: bool,
    counts: [u64; TRAPS.len()],
    agains: u64,
}

impl TurnTraps {
    pub fn new() -> Self {
        TurnTraps {
            steps: Vec::new(),
            yesterday: Vec::new(),
            shows_entry: false,
            counts: [0; TRAPS.len()],
            agains: 0,
        }
    }

    /// Counts what a call met.
    pub fn call(&mut self, played: &Played) {
        match (played.call, played.answer) {
            (Call::Open { .. }, _) => {
                self.steps.clear();
                self.yesterday.clear();
                self.shows_entry = false;
            }
            (Call::Close { .. }, 0) => self.close(played),
            _ => {
                self.agains += u64::from(self.shows_entry && is_again(played));
                let step = Step::of(played)
                    .filter(|step| step.offered().is_some() || self.steps.len() < KEPT);
                self.steps.extend(step);
            }
        }
    }

    /// Counts what the auctions of an accepted Close met, and begins a new day.
    fn close(&mut self, close: &Played) {
        let steps = std::mem::take(&mut self.steps);
        let auctions = auctions_of(&steps, close);
        self.shows_entry = false;
        for (place, auction) in auctions.iter().enumerate() {
            let asked = Asked {
                auction,
                groups: auction.groups(),
                higher: &auctions[place + 1..],
                steps: &steps,
                yesterday: &self.yesterday,
            };
            for (count, (_, is_met)) in self.counts.iter_mut().zip(TRAPS) {
                *count += u64::from(is_met(&asked));
            }
            self.shows_entry |= asked.shows_entry();
        }
        self.yesterday = offers_in(&steps).map(|(_, offer)| offer.clone()).collect();
    }

    /// The names of the situations with their counts.
    pub fn rows(&self) -> impl Iterator<Item = (&'static str, u64)> + '_ {
        rows_of(&TRAPS, &self.counts).chain(once((AGAIN, self.agains)))
    }
}

fn is_again(played: &Played) -> bool {
    played.answer == 0 && matches!(played.call, Call::Again { .. })
}

/// The auctions of an accepted Close that have two offers or more, in rising number of their obligations.
fn auctions_of<'a>(steps: &'a [Step], close: &Played) -> Vec<Auction<'a>> {
    let offers = offers_in(steps);
    let mut numbers: Vec<usize> = offers.clone().map(|(_, offer)| offer.obligation).collect();
    numbers.sort();
    let with_two = numbers
        .chunk_by(|one, other| one == other)
        .filter(|alike| alike.len() > 1);
    let auction_of = |alike: &[usize]| {
        let own = offers
            .clone()
            .filter(|(_, offer)| offer.obligation == alike[0]);
        Auction::of(alike[0], own, close)
    };
    with_two.filter_map(auction_of).collect()
}

#[cfg(test)]
mod tests {
    use crate::hits::Hits;
    use crate::journal::{parse, CallSet};
    use crate::play::Player;

    /// Plays a journal; returns the rows of auctions that were met, without the start of their names, each
    /// as often as it was met.
    fn met(journal: &str) -> Vec<String> {
        let (mut hits, mut player, calls) = (Hits::new(), Player::new(), CallSet::all());
        for line in journal.lines() {
            let mut numbers = Vec::new();
            let call = parse(line.as_bytes(), &calls, &mut numbers).expect(line);
            hits.play(&mut player, call, &mut Vec::new());
        }
        let table = hits.table(&calls);
        let rows = table
            .lines()
            .filter_map(|row| row.strip_prefix("trap turn-"));
        let pairs = rows.map(|row| row.split_once(' ').unwrap());
        pairs
            .flat_map(|(name, count)| vec![name.to_string(); count.parse().unwrap()])
            .collect()
    }

    /// Two legs of an obligation of member 0 towards member 1.
    fn pair(quantity: u64, amount: u64, day: u64) -> String {
        let end = format!("{quantity} {amount} {day}");
        format!("enter 0 1 0 {end}\nenter 1 0 1 {end}\n")
    }

    const CLOSE: &str = "close 100000 1152 7\n";

    /// A book of the terms on the n-th day of the buy-in of obligations 0, 1 and 2, each of 10 units for
    /// 1,000,000 cents. Obligation 3 is not in its buy-in, and 4 is empty.
    fn start(terms: u64, n: usize) -> String {
        let pairs = pair(10, 1_000_000, 2).repeat(3) + &pair(10, 1_000_000, 10) + &pair(1, 1, 2);
        let closes = CLOSE.repeat([30, 10][terms as usize] + n);
        format!("open 2 {terms} 0\nrate 2 10\n{pairs}deliver 4 1\n{closes}")
    }

    /// The lines of offers for an obligation: supplier, quantity and price of each.
    fn offers(number: u64, offers: &[(u64, u64, u64)]) -> String {
        let line =
            |(supplier, quantity, price)| format!("offer {number} {supplier} {quantity} {price}\n");
        offers.iter().copied().map(line).collect()
    }

    /// Offers for obligation 0 at one price, by suppliers 1, 2 and so on.
    fn at_one_price(quantities: &[u64]) -> String {
        let offer = |(supplier, &quantity)| (supplier, quantity, 101_000);
        offers(0, &(1..).zip(quantities).map(offer).collect::<Vec<_>>())
    }

    /// A row's family: whether the name is of it.
    type Family = fn(&str) -> bool;

    /// Checks which rows of a family the calls meet on a book, with a Close after them.
    fn assert_rows_on(book: &str, family: Family, calls: &str, expected: &[&str]) {
        let rows = met(&format!("{book}{calls}{CLOSE}"));
        let found: Vec<&String> = rows.iter().filter(|row| family(row)).collect();
        assert_eq!(found, expected, "{calls}");
    }

    /// The same on the first day of the buy-in.
    fn assert_rows(family: Family, calls: &str, expected: &[&str]) {
        assert_rows_on(&start(1, 1), family, calls, expected);
    }

    /// A book on the first day of the buy-in of one obligation.
    fn start_with(quantity: u64, amount: u64) -> String {
        format!(
            "open 2 1 0\nrate 2 10\n{}{}",
            pair(quantity, amount, 2),
            CLOSE.repeat(11)
        )
    }

    #[test]
    fn no_rows_without_two_offers_at_one_price_whose_order_shows() {
        for calls in [
            String::new(),
            at_one_price(&[12]),
            offers(0, &[(1, 5, 101_000), (2, 6, 101_001)]),
            // Two offers that are alike, or that are not taken.
            offers(0, &[(1, 3, 101_000), (1, 3, 101_000)]),
            offers(0, &[(1, 5, 101_000), (2, 6, 101_000), (3, 10, 100_999)]),
            // One offer for each obligation.
            offers(0, &[(1, 5, 101_000)]) + &offers(1, &[(2, 6, 101_000)]),
            // Nothing is outstanding any more.
            at_one_price(&[4, 5]) + "deliver 0 10\n",
            at_one_price(&[4, 5]) + "cancel 0 0\ncancel 0 1\n",
        ] {
            assert_eq!(
                met(&format!("{}{calls}{CLOSE}again 1152 0\n", start(1, 1))),
                [""; 0],
                "{calls}"
            );
        }
        // The Close is refused, or another book was opened.
        let offered = start(1, 1) + &at_one_price(&[4, 5]);
        let opened = "open 2 1 0\nrate 2 1\nclose 1 1152 7\n";
        for calls in ["close 0 1152 7\n", opened] {
            assert_eq!(met(&format!("{offered}{calls}")), [""; 0], "{calls}");
        }
    }

    #[test]
    fn the_shapes_of_quantities_are_counted() {
        let family: Family = |row| {
            let shapes = ["rising-", "falling-", "equal-", "rise-", "fall-"];
            shapes.iter().any(|shape| row.starts_with(shape))
        };
        let shapes: [(&[u64], &[&str]); 16] = [
            (&[10, 12], &["rising-one"]),
            (&[4, 7], &["rising-part"]),
            (&[4, 6], &["rising-all"]),
            (&[12, 10], &["falling-one"]),
            (&[7, 4], &["falling-part"]),
            (&[5, 4], &["falling-all"]),
            (&[11, 11], &["equal-one"]),
            (&[6, 6], &["equal-part"]),
            (&[3, 3, 3], &["equal-all"]),
            (&[1, 3, 2], &["rise-and-fall"]),
            (&[1, 3, 4, 9, 2], &["rise-and-fall"]),
            (&[5, 6, 1], &[]),
            (&[3, 1, 2], &["fall-and-rise"]),
            (&[3, 1, 2, 1], &[]),
            (&[1, 3, 3], &[]),
            (&[2, 3, 4, 5], &[]),
        ];
        for (quantities, rows) in shapes {
            assert_rows(family, &at_one_price(quantities), rows);
        }
    }

    /// The rows on what another order would give.
    fn is_order(row: &str) -> bool {
        row.starts_with("not-") || row == "more-lines"
    }

    #[test]
    fn other_orders_at_one_price_are_counted() {
        let orders: [(&[(u64, u64)], &[&str]); 5] = [
            (
                &[(1, 2), (2, 12)],
                &[
                    "not-larger-first",
                    "not-later-first",
                    "not-higher-supplier",
                    "more-lines",
                ],
            ),
            (
                &[(2, 3), (1, 4)],
                &["not-larger-first", "not-later-first", "not-lower-supplier"],
            ),
            (
                &[(1, 4), (2, 3)],
                &[
                    "not-smaller-first",
                    "not-later-first",
                    "not-higher-supplier",
                ],
            ),
            (
                &[(1, 4), (2, 4)],
                &["not-later-first", "not-higher-supplier"],
            ),
            (&[(1, 4), (1, 3)], &["not-smaller-first", "not-later-first"]),
        ];
        for (entries, rows) in orders {
            let at_one_price: Vec<_> = entries.iter().map(|&(s, q)| (s, q, 101_000)).collect();
            assert_rows(is_order, &offers(0, &at_one_price), rows);
        }
    }

    #[test]
    fn other_orders_of_prices_are_counted() {
        let two = [(1, 4, 101_000), (1, 3, 101_000)];
        let at_two = ["not-smaller-first", "not-later-first", "not-dearer-first"];
        for (price, rows) in [
            (101_001, &[][..]),
            (100_999, &["not-entry-alone", "not-exchanged"]),
        ] {
            let entries = [two[0], two[1], (1, 1, price)];
            assert_rows(is_order, &offers(0, &entries), &[&at_two, rows].concat());
        }
    }

    #[test]
    fn cents_at_one_price_are_counted() {
        // Three units for 1,000 cents: the third costs one cent more than the others.
        let family: Family = |row| row == "other-cents" || row == "charge-0";
        for (entries, rows) in [
            ([(1, 1, 334), (2, 2, 334)], &["other-cents"][..]),
            ([(1, 2, 334), (2, 1, 334)], &[]),
            ([(1, 1, 333), (2, 2, 333)], &["charge-0"]),
            ([(1, 1, 333), (2, 1, 333)], &[]),
            ([(1, 1, 332), (2, 1, 332)], &["charge-0"]),
            ([(1, 3, 332), (2, 1, 332)], &[]),
        ] {
            assert_rows_on(&start_with(3, 1_000), family, &offers(0, &entries), rows);
        }
    }

    #[test]
    fn other_prices_are_counted() {
        let family: Family = |row| {
            let prices = ["cheaper-", "dearer-", "two-", "price-", "at-"];
            prices.iter().any(|price| row.starts_with(price))
        };
        let all = 101_000;
        let prices: [(&[(u64, u64, u64)], &[&str]); 9] = [
            (
                &[(1, 3, all), (2, 4, all), (3, 2, all - 1)],
                &["cheaper-after-larger"],
            ),
            (
                &[(1, 1, all), (2, 2, all), (3, 3, all - 1)],
                &["cheaper-after-smaller"],
            ),
            (
                &[(1, 2, all), (2, 2, all), (3, 2, all - 1)],
                &["cheaper-after-equal"],
            ),
            (&[(3, 2, all - 1), (1, 2, all), (2, 3, all)], &[]),
            (
                &[(1, 2, all), (3, 2, all + 1), (2, 3, all)],
                &["dearer-between"],
            ),
            (
                &[(1, 3, all), (3, 2, all - 1), (2, 3, all)],
                &["cheaper-after-larger", "cheaper-between"],
            ),
            (
                &[(1, 2, all), (2, 2, all + 1), (3, 3, all), (4, 3, all + 1)],
                &[
                    "cheaper-after-smaller",
                    "dearer-between",
                    "cheaper-between",
                    "two-prices",
                ],
            ),
            (&[(1, 2, 1), (2, 3, 1)], &["price-1"]),
            (&[(1, 2, 108_000), (2, 3, 108_000)], &["at-cap"]),
        ];
        for (entries, rows) in prices {
            assert_rows(family, &offers(0, entries), rows);
        }
    }

    #[test]
    fn crowds_are_counted() {
        let crowd = |count: u64, step: u64| {
            let offer = |number| (number, 1 + number % 2, 100_000 + number % step);
            offers(0, &(0..count).map(offer).collect::<Vec<_>>())
        };
        for (count, step, rows) in [
            (33, 2, &["crowd"][..]),
            (32, 2, &[]),
            (64, 1, &[]),
            (33, 33, &[]),
        ] {
            let book = start_with(1_000, 1_000);
            assert_rows_on(&book, |row| row == "crowd", &crowd(count, step), rows);
        }
    }

    #[test]
    fn offers_in_turn_are_counted() {
        let family: Family = |row| row.starts_with("in-turn");
        let entry = |number: u64, supplier: u64, quantity: u64| {
            offers(number, &[(supplier, quantity, 101_000)])
        };
        let first = [entry(0, 1, 3), entry(0, 2, 4)];
        let turns: [(&[String], &[&str]); 6] = [
            (&[entry(1, 1, 3), entry(1, 2, 4)], &["in-turn"]),
            (
                &[entry(1, 1, 4), entry(1, 2, 3)],
                &["in-turn", "in-turn-other-shape"],
            ),
            (
                &[entry(1, 2, 3), entry(1, 1, 4)],
                &["in-turn", "in-turn-other-suppliers"],
            ),
            (
                &[entry(1, 2, 4), entry(1, 1, 3)],
                &["in-turn", "in-turn-other-shape", "in-turn-other-suppliers"],
            ),
            (&[entry(1, 1, 3), entry(1, 1, 3)], &[]),
            (&[entry(0, 1, 3), entry(0, 2, 4)], &[]),
        ];
        for (second, rows) in turns {
            let calls = [&first[0], &second[0], &first[1], &second[1]];
            assert_rows(family, &calls.map(String::as_str).concat(), rows);
            let apart = [&first[0], &first[1], &second[0], &second[1]];
            assert_rows(family, &apart.map(String::as_str).concat(), &[]);
        }
        // Each pair of obligations is counted for the lower one, the three for the lowest.
        let three = |supplier, quantity| {
            (0..3)
                .map(|n| entry(n, supplier, quantity))
                .collect::<String>()
        };
        let rows = ["in-turn", "in-turn", "in-turn-of-three"];
        assert_rows(family, &(three(1, 3) + &three(2, 4)), &rows);
    }

    /// The rows on what stands between two offers at one price, or behind them.
    fn is_between(row: &str) -> bool {
        row.ends_with("-between") || row.ends_with("-behind")
    }

    #[test]
    fn what_stands_between_two_offers_is_counted() {
        let [one, other] = [&[3][..], &[0, 8]].map(at_one_price);
        let other = other.lines().last().unwrap();
        for (calls, rows) in [
            ("offer 0 1000 5 101000", &["1-between"][..]),
            ("offer 0 1000 5 101001", &[]),
            ("offer 1 1000 5 101000", &[]),
            ("offer 0 9 0 101000", &["2-between"]),
            ("offer 0 9 100001 101000", &["2-between"]),
            ("offer 0 9 5 200001", &["3-between"]),
            ("offer 5 9 5 101000", &["13-between"]),
            ("offer 4 9 5 101000", &["15-between"]),
            ("offer 3 9 5 101000", &["16-between"]),
            ("offer 3 9 5 101001", &[]),
            ("offer 0 9 5 108001", &["18-between"]),
            ("offer 1 9 5 108001", &[]),
            ("close 0 1152 7", &["close-3-between"]),
            ("close 1 1151 7", &["close-5-between"]),
            ("again 1152 7", &["again-between"]),
            ("again 1151 7", &[]),
            ("month 0 32 7", &["month-between"]),
            ("month 0 31 7", &[]),
            ("cancel 0 1", &["wish-between"]),
            ("cancel 1 1", &[]),
            ("cancel 0 2", &[]),
            ("deliver 0 2", &["deliver-between"]),
            ("deliver 1 2", &[]),
            ("offer 1 9 5 101000\ndeliver 1 10", &["emptied-between"]),
            (
                "offer 1 9 5 101000\ncancel 1 0\ncancel 1 1",
                &["emptied-between"],
            ),
            ("offer 1 9 5 101001\ndeliver 1 10", &[]),
            ("deliver 1 10", &[]),
            ("rules", &[]),
        ] {
            assert_rows(is_between, &format!("{one}{calls}\n{other}\n"), rows);
            // Before both offers it is not between them.
            assert_rows(is_between, &format!("{calls}\n{one}{other}\n"), &[]);
        }
    }

    #[test]
    fn a_deliver_behind_the_offers_is_counted() {
        for (quantities, units, rows) in [
            (&[3, 8][..], 1, &["deliver-behind"][..]),
            (&[3, 4], 4, &["deliver-behind"]),
            (&[3, 4], 3, &[]),
        ] {
            let calls = format!("{}deliver 0 {units}\n", at_one_price(quantities));
            assert_rows(is_between, &calls, rows);
            assert_rows(is_between, &calls.replace("deliver 0", "deliver 1"), &[]);
        }
    }

    #[test]
    fn full_books_at_one_price_are_counted() {
        let rising: Vec<u64> = (1..=64).collect();
        let refused = offers(0, &[(7, 1, 101_000)]);
        let full = at_one_price(&rising) + &refused;
        for (units, calls, rows) in [
            (2_081, &full, &["17-behind", "64-of-64"][..]),
            (2_080, &full, &["64-of-64"]),
            (2_016, &full, &["64-of-fewer"]),
            (2, &full, &["64-of-fewer"]),
            (2_081, &at_one_price(&rising[1..]), &[]),
            (6_500, &at_one_price(&[100; 64]), &[]),
        ] {
            let family: Family = |row| row.starts_with("17-") || row.starts_with("64-");
            assert_rows_on(&start_with(units, 1), family, calls, rows);
        }
    }

    #[test]
    fn suppliers_and_sizes_are_counted() {
        let family: Family = |row| {
            let sizes = ["same-", "large-", "exhausted"];
            sizes.iter().any(|size| row.starts_with(size))
        };
        let all = 101_000;
        let sizes: [(&[(u64, u64, u64)], &[&str]); 11] = [
            (&[(1, 3, all), (1, 4, all)], &["same-supplier"]),
            (&[(1, 3, all), (1, 3, all), (2, 1, all)], &[]),
            (
                &[(1, 3, all), (2, 1, all), (1, 4, all)],
                &["same-supplier-apart"],
            ),
            (&[(1, 3, all), (1, 3, all + 1), (2, 4, all)], &[]),
            (&[(1, 11, all), (2, 3, all)], &["large-first"]),
            (&[(1, 10, all), (2, 3, all)], &["exhausted"]),
            (&[(1, 3, all), (2, 11, all)], &["large-last"]),
            (&[(1, 3, all), (2, 10, all)], &[]),
            (&[(1, 4, all), (2, 6, all), (3, 1, all)], &["exhausted"]),
            (&[(1, 4, all), (2, 7, all), (3, 1, all)], &[]),
            (&[(1, 4, all), (2, 6, all), (3, 1, all + 1)], &[]),
        ];
        for (entries, rows) in sizes {
            assert_rows(family, &offers(0, entries), rows);
        }
    }

    #[test]
    fn the_day_after_is_counted() {
        let [first, second] = [&[1, 2][..], &[3, 9]].map(at_one_price);
        let day_after = |calls: String| {
            let rows = met(&(start(1, 1) + &calls + CLOSE));
            rows.contains(&"day-after".to_string())
        };
        assert!(day_after(format!("{first}{CLOSE}{second}")));
        assert!(!day_after(format!("{first}{CLOSE}{CLOSE}{second}")));
        assert!(!day_after(format!("{first}close 0 1152 7\n{second}")));
        assert!(!day_after(format!("{}{CLOSE}{second}", at_one_price(&[1]))));
        let dearer = second.replace("101000", "101001");
        assert!(!day_after(format!("{first}{CLOSE}{dearer}")));
        let other = second.replace("offer 0", "offer 1");
        assert!(!day_after(format!("{first}{CLOSE}{other}")));
    }

    #[test]
    fn the_stages_are_counted() {
        let stages = |terms: u64, day: usize, quantities: &[u64]| -> Vec<String> {
            let journal = start(terms, day) + &at_one_price(quantities) + CLOSE;
            let mut rows = met(&journal);
            rows.retain(|row| row.contains("terms"));
            rows
        };
        for (terms, days) in [(0, 5), (1, 3)] {
            let [early, last, compensated] =
                ["", "last-day-", "compensated-"].map(|stage| format!("{stage}terms-{terms}"));
            for day in 1..days {
                assert_eq!(stages(terms, day, &[3, 4]), [early.clone()]);
            }
            assert_eq!(stages(terms, days, &[3, 12]), [last.clone()]);
            assert_eq!(stages(terms, days, &[3, 4]), [last, compensated]);
            assert_eq!(stages(terms, days, &[4, 3]), [""; 0]);
        }
    }

    #[test]
    fn an_again_after_such_a_close_is_counted() {
        let agains = |quantities: &[u64], after: &str| {
            let rows = met(&(start(1, 1) + &at_one_price(quantities) + CLOSE + after));
            rows.iter().filter(|row| *row == "then-again").count()
        };
        assert_eq!(
            agains(&[3, 12], "again 1152 7\nmonth 0 32 7\nagain 4096 7\n"),
            2
        );
        assert_eq!(agains(&[3, 12], "again 1151 7\n"), 0);
        assert_eq!(agains(&[12, 3], "again 1152 7\n"), 0);
        assert_eq!(agains(&[3, 12], &format!("{CLOSE}again 1152 7\n")), 0);
        assert_eq!(
            agains(
                &[3, 12],
                &format!("open 2 1 0\nrate 2 1\n{CLOSE}again 1152 7\n")
            ),
            0
        );
    }
}
