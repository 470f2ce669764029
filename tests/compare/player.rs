//! A player of day files straight from the rule book, for comparison with the library. It works each fill out by
//! itself: for every order it adds up the shares ahead anew. That is slow, and meant to be plain.

use crate::records::{Reader, Record};
use std::io::Write;

/// How the player reads the Rule: rightly, or in one of the wrong ways of section 16 of the rule book. The wrong ways
/// show that the comparison finds a player that takes them.
#[derive(Clone, Copy, Debug, PartialEq, Eq)]
pub enum Reading {
    Right,
    LastInPart,
    LastLeftOut,
    AtMostTheVolume,
    StopAtOnce,
    ZeroPlusLost,
    SellsApart,
    LimitTurnedRound,
    FilledAtTheLimit,
    OpeningFillsLimits,
    OpeningHoldsMarkets,
    DueAtThirty,
    TimerForShorts,
    TimerForLimits,
}

pub const WRONG_READINGS: [(&str, Reading); 13] = [
    ("last-in-part", Reading::LastInPart),
    ("last-left-out", Reading::LastLeftOut),
    ("at-most-the-volume", Reading::AtMostTheVolume),
    ("stop-at-once", Reading::StopAtOnce),
    ("zero-plus-lost", Reading::ZeroPlusLost),
    ("sells-apart", Reading::SellsApart),
    ("limit-turned-round", Reading::LimitTurnedRound),
    ("filled-at-the-limit", Reading::FilledAtTheLimit),
    ("opening-fills-limits", Reading::OpeningFillsLimits),
    ("opening-holds-markets", Reading::OpeningHoldsMarkets),
    ("due-at-thirty", Reading::DueAtThirty),
    ("timer-for-shorts", Reading::TimerForShorts),
    ("timer-for-limits", Reading::TimerForLimits),
];

/// All lines of a file, whatever room they need, and the number of its fault (0 for none).
pub struct Played {
    pub text: Vec<u8>,
    pub fault: u32,
}

impl Played {
    /// What an output of this length gets: how many bytes of the text are written, and the answer.
    pub fn into_output(&self, out_len: usize) -> (usize, u64) {
        if self.text.len() <= out_len {
            return (self.text.len(), self.text.len() as u64 * 32 + u64::from(self.fault));
        }
        let last_feed = self.text[..out_len].iter().rposition(|&byte| byte == b'\n');
        let written = last_feed.map_or(0, |at| at + 1);
        (written, written as u64 * 32 + 18)
    }
}

/// Plays a file.
pub fn play(file: &[u8], reading: Reading) -> Played {
    let mut text = Vec::new();
    let mut reader = Reader::new(file);
    let mut day = Day::not_made(reading);
    for k in 1.. {
        match reader.record() {
            Ok(Some(record)) => match day.apply(record) {
                Ok(rows) => rows.iter().for_each(|row| row.print(&mut text)),
                Err(n) => writeln!(text, "R {k} {n}").unwrap(),
            },
            Ok(None) => {
                writeln!(text, "T {} {}", day.ledger_shares, day.ledger_money).unwrap();
                return Played { text, fault: 0 };
            }
            Err(fault) => {
                writeln!(text, "X {} {}", fault.place, fault.number).unwrap();
                return Played { text, fault: fault.number };
            }
        }
    }
    unreachable!("a file ends")
}

struct Row {
    number: u32,
    side: u32,
    shares: u32,
    price: u32,
    mark: u32,
}

impl Row {
    fn of(order: &Order, price: u32, mark: u32) -> Row {
        Row { number: order.number, side: order.side, shares: order.shares, price, mark }
    }

    fn print(&self, text: &mut Vec<u8>) {
        writeln!(text, "{} {} {} {} {}", self.number, self.side, self.shares, self.price, self.mark).unwrap();
    }
}

/// The rows of an accepted record, or the number of its refusal.
type Answer = Result<Vec<Row>, u32>;

struct Order {
    number: u32,
    side: u32,
    kind: u32,
    shares: u32,
    limit: u32,
    stop: u32,
    receipt: u32,
    elected: bool,
}

impl Order {
    fn is_buy(&self) -> bool {
        self.side == 1
    }

    fn is_market(&self) -> bool {
        self.kind == 1 || self.kind == 3 && self.elected
    }

    fn is_limit(&self) -> bool {
        self.kind == 2 || self.kind == 4 && self.elected
    }

    fn stop_is_reached(&self, price: u32) -> bool {
        let reached = if self.is_buy() { self.stop <= price } else { self.stop >= price };
        (self.kind == 3 || self.kind == 4) && reached
    }
}

struct Sale {
    price: u32,
    opening: bool,
    rising: bool,
}

#[derive(PartialEq)]
enum Phase {
    Unopened,
    Open,
    Closed,
}

struct Day {
    reading: Reading,
    phase: Phase,
    unit: u32,
    time: u32,
    bid: u32,
    offer: u32,
    latest: u32,
    latest_rising: bool,
    accepted: u32,
    /// The live orders, by rising number.
    orders: Vec<Order>,
    ledger_shares: i64,
    ledger_money: i64,
}

fn is_price(price: u32) -> bool {
    (1..=200_000_000).contains(&price)
}

impl Day {
    fn not_made(reading: Reading) -> Day {
        Day {
            reading,
            phase: Phase::Closed,
            unit: 0,
            time: 0,
            bid: 0,
            offer: 0,
            latest: 0,
            latest_rising: false,
            accepted: 0,
            orders: Vec::new(),
            ledger_shares: 0,
            ledger_money: 0,
        }
    }

    fn apply(&mut self, record: Record) -> Answer {
        if let Record::Start { unit, close, tag } = record {
            return self.start(unit, close, tag);
        }
        if self.phase == Phase::Closed {
            return Err(1);
        }
        match record {
            Record::Start { .. } => unreachable!("the reader gives one start, at the beginning"),
            Record::Clock { time } => self.clock(time),
            Record::Order { side, kind, shares, limit, stop } => self.order(side, kind, shares, limit, stop),
            Record::Cancel { number } => self.cancel(number),
            Record::Quote { bid, offer } => self.quote(bid, offer),
            Record::Opening { price, volume } if self.phase == Phase::Unopened => self.sale(price, volume, true),
            Record::Opening { .. } => Err(3),
            Record::Trade { price, volume } if self.phase == Phase::Open => self.sale(price, volume, false),
            Record::Trade { .. } => Err(2),
            Record::Close => Ok(self.close()),
        }
    }

    fn start(&mut self, unit: u32, close: u32, tag: u32) -> Answer {
        if (unit != 10 && unit != 100) || !is_price(close) || tag == 0 {
            return Err(4);
        }
        (self.unit, self.latest, self.phase) = (unit, close, Phase::Unopened);
        Ok(vec![])
    }

    fn order(&mut self, side: u32, kind: u32, shares: u32, limit: u32, stop: u32) -> Answer {
        let sized = 1 <= shares && shares < self.unit;
        let priced = match kind {
            1 => limit == 0 && stop == 0,
            2 => is_price(limit) && stop == 0,
            3 => limit == 0 && is_price(stop),
            4 => is_price(limit) && is_price(stop),
            _ => false,
        };
        if !(1..=3).contains(&side) || !sized || !priced {
            return Err(4);
        }
        if self.accepted == 60_000 {
            return Err(7);
        }
        if self.orders.len() == 512 {
            return Err(8);
        }
        self.accepted += 1;
        let (number, receipt) = (self.accepted, self.time);
        self.orders.push(Order { number, side, kind, shares, limit, stop, receipt, elected: false });
        Ok(vec![])
    }

    fn cancel(&mut self, number: u32) -> Answer {
        if !self.orders.iter().any(|order| order.number == number) {
            return Err(9);
        }
        self.orders.retain(|order| order.number != number);
        Ok(vec![])
    }

    fn quote(&mut self, bid: u32, offer: u32) -> Answer {
        if (bid != 0 && !is_price(bid)) || (offer != 0 && !is_price(offer)) {
            return Err(4);
        }
        if bid != 0 && offer != 0 && bid >= offer {
            return Err(6);
        }
        (self.bid, self.offer) = (bid, offer);
        Ok(vec![])
    }

    fn clock(&mut self, time: u32) -> Answer {
        if time > 86_399_999 {
            return Err(4);
        }
        if time < self.time {
            return Err(5);
        }
        self.time = time;
        if self.phase != Phase::Open {
            return Ok(vec![]);
        }
        let due = self.orders.iter().filter(|order| self.is_due(order));
        let rows: Vec<Row> = due.filter_map(|order| self.at_the_quote(order)).collect();
        self.settle(&rows);
        Ok(rows)
    }

    fn is_due(&self, order: &Order) -> bool {
        let waited = self.time - order.receipt;
        waited > 30_000 || waited == 30_000 && self.reading == Reading::DueAtThirty
    }

    /// The fill of an order at the quote: of a market order that is not short, and whose price is there.
    fn at_the_quote(&self, order: &Order) -> Option<Row> {
        let kind_fits = order.is_market() || order.is_limit() && self.reading == Reading::TimerForLimits;
        let side_fits = order.side != 3 || self.reading == Reading::TimerForShorts;
        let (price, mark) = if order.is_buy() { (self.offer, 3) } else { (self.bid, 4) };
        (kind_fits && side_fits && price != 0).then(|| Row::of(order, price, mark))
    }

    fn close(&mut self) -> Vec<Row> {
        let end = |order: &Order| {
            let fill = if self.phase == Phase::Open { self.at_the_quote(order) } else { None };
            fill.unwrap_or_else(|| Row::of(order, 0, 6))
        };
        let rows: Vec<Row> = self.orders.iter().map(end).collect();
        self.settle(&rows);
        self.phase = Phase::Closed;
        rows
    }

    fn sale(&mut self, price: u32, volume: u32, opening: bool) -> Answer {
        if !is_price(price) || volume < self.unit || volume > 100_000_000 {
            return Err(4);
        }
        let zero_plus = price == self.latest && self.latest_rising && self.reading != Reading::ZeroPlusLost;
        let sale = Sale { price, opening, rising: price > self.latest || zero_plus };
        let reach = self.matched(&sale) + volume;
        let rows: Vec<Row> = self.orders.iter().filter_map(|order| self.fill(order, &sale, reach)).collect();
        self.settle(&rows);
        for order in &mut self.orders {
            order.elected = order.elected || order.stop_is_reached(price);
        }
        self.phase = Phase::Open;
        (self.latest, self.latest_rising) = (price, sale.rising);
        Ok(rows)
    }

    fn is_eligible(&self, order: &Order, sale: &Sale) -> bool {
        let pays_at_most = order.is_buy() != (self.reading == Reading::LimitTurnedRound);
        let limit_fits = if pays_at_most { order.limit >= sale.price } else { order.limit <= sale.price };
        let at_once = self.reading == Reading::StopAtOnce && order.stop_is_reached(sale.price);
        let is_market = order.is_market() || at_once && order.kind == 3;
        let is_limit = order.is_limit() || at_once && order.kind == 4;
        (is_market || is_limit && limit_fits) && (order.side != 3 || sale.rising)
    }

    /// The shares of the eligible orders of the sides given that have smaller numbers than the one given.
    fn eligible_shares(&self, sale: &Sale, sides: &[u32], below: u32) -> u32 {
        let of_sides = self.orders.iter().filter(|order| sides.contains(&order.side) && order.number < below);
        of_sides.filter(|order| self.is_eligible(order, sale)).map(|order| order.shares).sum()
    }

    /// M: the shares of buys and sells that are set against each other.
    fn matched(&self, sale: &Sale) -> u32 {
        let sells: &[u32] = if self.reading == Reading::SellsApart { &[2] } else { &[2, 3] };
        self.eligible_shares(sale, &[1], u32::MAX).min(self.eligible_shares(sale, sells, u32::MAX))
    }

    /// The fill of an order by a sale, where `reach` is M + V.
    fn fill(&self, order: &Order, sale: &Sale, reach: u32) -> Option<Row> {
        let sides: &[u32] = if order.is_buy() { &[1] } else { &[2, 3] };
        let ahead = self.eligible_shares(sale, sides, order.number);
        let within = match self.reading {
            Reading::AtMostTheVolume => ahead <= reach,
            Reading::LastLeftOut => ahead + order.shares <= reach,
            _ => ahead < reach,
        };
        let whatever_is_ahead = match self.reading {
            Reading::OpeningFillsLimits => sale.opening,
            Reading::OpeningHoldsMarkets => false,
            _ => sale.opening && order.is_market(),
        };
        if !self.is_eligible(order, sale) || !within && !whatever_is_ahead {
            return None;
        }
        let at_limit = self.reading == Reading::FilledAtTheLimit && order.limit != 0;
        let mut row = Row::of(order, sale.price, if sale.opening { 1 } else { 2 });
        row.price = if at_limit { order.limit } else { sale.price };
        if self.reading == Reading::LastInPart && within {
            row.shares = row.shares.min(reach - ahead);
        }
        Some(row)
    }

    /// Takes the orders of these rows out of the book, and posts each fill to the ledger.
    fn settle(&mut self, rows: &[Row]) {
        self.orders.retain(|order| rows.iter().all(|row| row.number != order.number));
        for row in rows.iter().filter(|row| row.mark != 6) {
            let (shares, money) = (i64::from(row.shares), i64::from(row.shares) * i64::from(row.price));
            let sign = if row.side == 1 { -1 } else { 1 };
            self.ledger_shares += sign * shares;
            self.ledger_money -= sign * money;
        }
    }
}
