//! One obligation's auction in an accepted Close: what each offer gave, and what lines the offers would
//! give in another order.

use crate::book::{Line, Obligation, Offer, Terms, BOUGHT, COMPENSATED};
use crate::hits::Played;

/// An offer and what it gave.
pub struct Bid<'a> {
    pub offer: &'a Offer,
    /// Where its call stands among those of the day.
    pub place: usize,
    pub given: u64,
    pub cents: u64,
    /// The cash for what it gave.
    pub cash: u64,
}

impl<'a> Bid<'a> {
    /// An offer at its place, before it is taken.
    fn of((place, offer): (usize, &'a Offer)) -> Self {
        Bid {
            offer,
            place,
            given: 0,
            cents: 0,
            cash: 0,
        }
    }

    /// Whether it gave all it has.
    pub fn is_used_up(&self) -> bool {
        self.given == self.offer.quantity
    }
}

/// What an order goes by; entry decides where two are equal. A number by which the order is to fall goes
/// through `falling`.
pub type Key = fn(&Bid) -> (u64, u64);

/// The larger the number is, the smaller is this one.
pub fn falling(number: u64) -> u64 {
    u64::MAX - number
}

/// What an offer gives when it is taken: its place in the list of bids, the quantity, the cents, the cash.
type Turn = (usize, u64, u64, u64);

pub struct Auction<'a> {
    pub number: usize,
    /// The obligation as it was when the Close began.
    pub obligation: Obligation,
    pub age: u64,
    pub terms: Terms,
    /// The quantity that was compensated after the auction.
    pub compensated: u64,
    /// The bids in the order of their entry.
    pub bids: Vec<Bid<'a>>,
    /// The bought lines.
    lines: Vec<Line>,
    /// The places of the bids in the order in which they are taken.
    turns: Vec<usize>,
}

impl<'a> Auction<'a> {
    /// The auction of an accepted Close with these offers, which are in the order of their entry. There
    /// is none where nothing was outstanding.
    pub fn of(
        number: usize,
        offers: impl Iterator<Item = (usize, &'a Offer)>,
        close: &Played,
    ) -> Option<Self> {
        let lines = reported(close, number, BOUGHT);
        let compensated = units(&reported(close, number, COMPENSATED));
        let mut obligation = close.book.obligations[number].clone();
        obligation.bought_in -= units(&lines);
        obligation.compensated -= compensated;
        let calendar = &close.book.calendar;
        let mut auction = Auction {
            number,
            age: calendar.clearing_days_between(obligation.day, close.today),
            obligation,
            terms: close.book.terms,
            compensated,
            bids: offers.map(Bid::of).collect(),
            lines,
            turns: Vec::new(),
        };
        auction.take_turns();
        // Lines that are not those of the right order show nothing that could be counted.
        let is_right = auction.lines_in(&auction.turns) == auction.lines;
        (is_right && auction.obligation.outstanding() > 0).then_some(auction)
    }

    /// Works out what each bid gave.
    fn take_turns(&mut self) {
        self.turns = self.order_by(|bid| (bid.offer.price, 0));
        for (bid, given, cents, cash) in self.turns_in(&self.turns) {
            let bid = &mut self.bids[bid];
            (bid.given, bid.cents, bid.cash) = (given, cents, cash);
        }
    }

    // ------------------------------------------------------------ other orders

    /// The places of the bids by a key; those with equal keys stay in the order of entry.
    fn order_by(&self, key: Key) -> Vec<usize> {
        let mut order: Vec<usize> = (0..self.bids.len()).collect();
        order.sort_by_key(|&bid| key(&self.bids[bid]));
        order
    }

    /// The order before P4.
    fn larger_first(&self) -> Vec<usize> {
        self.order_by(|bid| (bid.offer.price, falling(bid.offer.quantity)))
    }

    /// Sorting by exchanges: the cheapest of the rest changes places with the first of the rest. This is
    /// in the right order of prices, but not always of entries.
    fn exchanged(&self) -> Vec<usize> {
        let mut order: Vec<usize> = (0..self.bids.len()).collect();
        for first in 0..order.len() {
            let cheapest =
                (first..order.len()).min_by_key(|&place| self.bids[order[place]].offer.price);
            order.swap(first, cheapest.unwrap_or(first));
        }
        order
    }

    /// What the bids would give in the order given.
    fn turns_in(&self, order: &[usize]) -> Vec<Turn> {
        let mut obligation = self.obligation.clone();
        let mut turns = Vec::new();
        for &bid in order {
            let before = obligation.clone();
            let (given, cents) = obligation.buy_in(self.bids[bid].offer);
            turns.push((bid, given, cents, before.cash_for(given)));
        }
        turns
    }

    fn lines_in(&self, order: &[usize]) -> Vec<Line> {
        let offers = order.iter().map(|&bid| self.bids[bid].offer);
        bought_lines(self.number, self.obligation.clone(), offers)
    }

    /// Whether the bids would give other lines in the order given.
    fn differs_in(&self, order: &[usize]) -> bool {
        self.lines_in(order) != self.lines
    }

    /// Whether an order by the key, then by entry, would give other lines.
    pub fn differs_by(&self, key: Key) -> bool {
        self.differs_in(&self.order_by(key))
    }

    pub fn differs_from_larger_first(&self) -> bool {
        self.differs_in(&self.larger_first())
    }

    pub fn differs_from_exchanged(&self) -> bool {
        self.differs_in(&self.exchanged())
    }

    /// Whether the order before P4 would give fewer lines.
    pub fn has_more_lines_than_larger_first(&self) -> bool {
        self.lines_in(&self.larger_first()).len() < self.lines.len()
    }

    /// Whether the order before P4 would take the same quantity of each bid, but for other cents.
    pub fn has_other_cents_than_larger_first(&self) -> bool {
        let turns = self.turns_in(&self.larger_first());
        let same = |&(bid, given, ..): &Turn| self.bids[bid].given == given;
        turns.iter().all(same)
            && turns
                .iter()
                .any(|&(bid, _, cents, _)| self.bids[bid].cents != cents)
    }

    /// Whether the lines would be others if two bids changed places.
    pub fn differs_if_swapped(&self, one: usize, other: usize) -> bool {
        let swapped = |&bid: &usize| match bid {
            bid if bid == one => other,
            bid if bid == other => one,
            bid => bid,
        };
        self.differs_in(&self.turns.iter().map(swapped).collect::<Vec<usize>>())
    }

    /// Whether the lines would be others with further offers, entered before the bids or after them.
    pub fn differs_with(&self, before: &[Offer], after: &[Offer]) -> bool {
        let bids = self.bids.iter().map(|bid| bid.offer);
        let mut offers: Vec<&Offer> = before.iter().chain(bids).chain(after).collect();
        offers.sort_by_key(|offer| offer.price);
        bought_lines(self.number, self.obligation.clone(), offers.into_iter()) != self.lines
    }

    /// Whether the lines would be others if a quantity that was delivered were still outstanding.
    pub fn differs_undelivered(&self, quantity: u64) -> bool {
        let mut obligation = self.obligation.clone();
        obligation.delivered -= quantity;
        let offers = self.turns.iter().map(|&bid| self.bids[bid].offer);
        bought_lines(self.number, obligation, offers) != self.lines
    }

    // ------------------------------------------------------------ bids at one price

    /// All bids at one price, for each price that two or more have, if the lines show their order.
    pub fn groups(&self) -> Vec<Group<'_>> {
        let mut prices: Vec<u64> = self.bids.iter().map(|bid| bid.offer.price).collect();
        prices.sort();
        let mut groups = Vec::new();
        for alike in prices
            .chunk_by(|one, other| one == other)
            .filter(|alike| alike.len() > 1)
        {
            let has_price = |&bid: &usize| self.bids[bid].offer.price == alike[0];
            let places = (0..self.bids.len()).filter(has_price).collect();
            groups.push(Group {
                auction: self,
                places,
            });
        }
        groups.retain(Group::shows_order);
        groups
    }
}

/// The lines of a kind that an accepted Close reported for an obligation.
fn reported(close: &Played, number: usize, kind: u64) -> Vec<Line> {
    let lines = close.book.lines_to_show().iter().copied();
    lines
        .filter(|line| line[..2] == [kind, number as u64])
        .collect()
}

/// The sum of the quantities of lines.
fn units(lines: &[Line]) -> u64 {
    lines.iter().map(|line| line[2]).sum()
}

/// The bought lines of offers that are taken as they come.
fn bought_lines<'a>(
    number: usize,
    mut obligation: Obligation,
    offers: impl Iterator<Item = &'a Offer>,
) -> Vec<Line> {
    let line = |offer: &Offer| {
        let (quantity, cents) = obligation.buy_in(offer);
        [
            BOUGHT,
            number as u64,
            quantity,
            cents,
            offer.supplier,
            offer.price,
        ]
    };
    offers.map(line).filter(|line| line[2] > 0).collect()
}

/// Two or more bids of an auction at one price, in the order of their entry.
pub struct Group<'a> {
    pub auction: &'a Auction<'a>,
    /// Where they stand in the list of bids.
    pub places: Vec<usize>,
}

impl<'a> Group<'a> {
    pub fn bids(&self) -> impl DoubleEndedIterator<Item = &'a Bid<'a>> + Clone + '_ {
        self.places.iter().map(|&place| &self.auction.bids[place])
    }

    pub fn bid(&self, number: usize) -> &'a Bid<'a> {
        &self.auction.bids[self.places[number]]
    }

    pub fn last(&self) -> &'a Bid<'a> {
        self.bid(self.places.len() - 1)
    }

    pub fn price(&self) -> u64 {
        self.bid(0).offer.price
    }

    /// Whether the lines would be others if the group were taken in the reverse order.
    fn shows_order(&self) -> bool {
        let mut order = self.auction.turns.clone();
        let in_group = |bid: &usize| self.places.contains(bid);
        let start = order.iter().position(in_group).unwrap_or(0);
        order[start..start + self.places.len()].reverse();
        self.auction.differs_in(&order)
    }

    /// How many of the bids have a line.
    pub fn lines(&self) -> usize {
        self.bids().filter(|bid| bid.given > 0).count()
    }

    /// The places of each bid and the next one, if the lines show which of the two came first.
    pub fn neighbours(&self) -> impl Iterator<Item = (usize, usize)> + '_ {
        let pairs = self.places.windows(2).map(|pair| (pair[0], pair[1]));
        pairs.filter(|&(one, other)| self.auction.differs_if_swapped(one, other))
    }

    // ------------------------------------------------------------ quantities

    fn quantities(&self) -> Vec<u64> {
        self.bids().map(|bid| bid.offer.quantity).collect()
    }

    pub fn is_rising(&self) -> bool {
        self.quantities().is_sorted_by(|one, next| one < next)
    }

    pub fn is_falling(&self) -> bool {
        self.quantities().is_sorted_by(|one, next| one > next)
    }

    pub fn is_equal(&self) -> bool {
        self.quantities().is_sorted_by(|one, next| one == next)
    }

    /// Whether the quantities rise up to one that is neither the first nor the last, and then fall.
    pub fn rises_and_falls(&self) -> bool {
        turns_at(&self.quantities(), |one, next| one < next)
    }

    pub fn falls_and_rises(&self) -> bool {
        turns_at(&self.quantities(), |one, next| one > next)
    }

    // ------------------------------------------------------------ what is wanted

    /// Whether the first gives something and the others nothing.
    pub fn wants_one(&self) -> bool {
        self.bid(0).given > 0 && self.lines() == 1
    }

    /// Whether the first gives all it has and the second a part.
    pub fn wants_part(&self) -> bool {
        let second = self.bid(1);
        self.bid(0).is_used_up() && second.given > 0 && !second.is_used_up()
    }

    pub fn wants_all(&self) -> bool {
        self.bids().all(Bid::is_used_up)
    }

    // ------------------------------------------------------------ two groups

    /// Whether bids of each of the two groups were entered between bids of the other.
    pub fn is_in_turn_with(&self, other: &Group) -> bool {
        let is_amid = |one: &Group, other: &Group| {
            let (first, last) = (one.bid(0).place, one.last().place);
            other
                .bids()
                .any(|bid| first < bid.place && bid.place < last)
        };
        is_amid(self, other) && is_amid(other, self)
    }

    pub fn suppliers(&self) -> impl DoubleEndedIterator<Item = u64> + Clone + '_ {
        self.bids().map(|bid| bid.offer.supplier)
    }
}

/// Whether each number and the next are in order up to one that is neither the first nor the last, and
/// from there on in the reverse order.
fn turns_at(numbers: &[u64], in_order: impl Fn(u64, u64) -> bool) -> bool {
    let keeps = numbers
        .windows(2)
        .take_while(|pair| in_order(pair[0], pair[1]))
        .count();
    let mut rest = numbers[keeps..].windows(2);
    0 < keeps && keeps + 1 < numbers.len() && rest.all(|pair| in_order(pair[1], pair[0]))
}
