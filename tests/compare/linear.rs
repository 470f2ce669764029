//! A plain linear player of day files, the measure of the benchmark: two passes down the book for a sale, one for a
//! clock, lines written straight into the caller's bytes. It shares nothing with the other player but the reader.

use crate::records::{Fault, Reader, Record};

const BOOK: usize = 512;

/// Plays a file into the output bytes, and answers as the library does.
pub fn play(file: &[u8], out: &mut [u8]) -> u64 {
    let mut reader = Reader::new(file);
    let mut output = Output { out, written: 0, short: false };
    let mut day = Day { book: Vec::with_capacity(BOOK), ..Day::default() };
    let mut k = 0;
    let end = loop {
        match reader.record() {
            Ok(Some(record)) => {
                k += 1;
                if let Err(n) = day.apply(record, &mut output) {
                    output.line(Line::new().byte(b'R').space().number(k).space().number(n));
                }
            }
            Ok(None) => break None,
            Err(fault) => break Some(fault),
        }
    };
    output.end(end, day.shares, day.money)
}

/// A line in the making.
struct Line {
    bytes: [u8; 64],
    len: usize,
}

impl Line {
    fn new() -> Line {
        Line { bytes: [0; 64], len: 0 }
    }

    fn byte(mut self, byte: u8) -> Line {
        self.bytes[self.len] = byte;
        self.len += 1;
        self
    }

    fn space(self) -> Line {
        self.byte(b' ')
    }

    fn number(mut self, number: u64) -> Line {
        let mut digits = [0; 20];
        let mut at = digits.len();
        let mut rest = number;
        loop {
            at -= 1;
            digits[at] = b'0' + (rest % 10) as u8;
            rest /= 10;
            if rest == 0 {
                break;
            }
        }
        let digits = &digits[at..];
        self.bytes[self.len..self.len + digits.len()].copy_from_slice(digits);
        self.len += digits.len();
        self
    }

    fn signed(self, number: i64) -> Line {
        let line = if number < 0 { self.byte(b'-') } else { self };
        line.number(number.unsigned_abs())
    }
}

struct Output<'a> {
    out: &'a mut [u8],
    written: usize,
    short: bool,
}

impl Output<'_> {
    fn line(&mut self, line: Line) {
        let line = line.byte(b'\n');
        let after = self.written + line.len;
        self.short = self.short || after > self.out.len();
        if !self.short {
            self.out[self.written..after].copy_from_slice(&line.bytes[..line.len]);
            self.written = after;
        }
    }

    fn row(&mut self, order: &Order, price: u32, mark: u64) {
        let line = Line::new().number(order.number.into()).space().number(order.side.into()).space();
        self.line(line.number(order.shares).space().number(price.into()).space().number(mark));
    }

    fn end(&mut self, fault: Option<Fault>, shares: i64, money: i64) -> u64 {
        self.line(match fault {
            None => Line::new().byte(b'T').space().signed(shares).space().signed(money),
            Some(at) => Line::new().byte(b'X').space().number(at.place as u64).space().number(at.number.into()),
        });
        let fault = fault.map_or(0, |fault| fault.number);
        self.written as u64 * 32 + if self.short { 18 } else { fault.into() }
    }
}

#[derive(Clone, Copy)]
struct Order {
    number: u32,
    side: u32,
    shares: u64,
    /// Kinds 2 and 4; the others are market orders once they are active.
    limited: bool,
    /// Not a stop that is still to be elected.
    active: bool,
    limit: u32,
    stop: u32,
    receipt: u32,
}

impl Order {
    fn eligible(&self, price: u32, rising: bool) -> bool {
        self.active
            && match self.side {
                1 => !self.limited || self.limit >= price,
                2 => !self.limited || self.limit <= price,
                _ => rising && (!self.limited || self.limit <= price),
            }
    }

    fn elect(&mut self, price: u32) {
        self.active |= if self.side == 1 { self.stop <= price } else { self.stop >= price };
    }
}

#[derive(Default, Clone, Copy, PartialEq)]
enum Phase {
    #[default]
    Closed,
    Unopened,
    Open,
}

#[derive(Default)]
struct Day {
    book: Vec<Order>,
    phase: Phase,
    unit: u32,
    time: u32,
    bid: u32,
    offer: u32,
    latest: u32,
    rising: bool,
    accepted: u32,
    shares: i64,
    money: i64,
}

fn priced(price: u32) -> bool {
    price.wrapping_sub(1) < 200_000_000
}

impl Day {
    fn apply(&mut self, record: Record, output: &mut Output) -> Result<(), u64> {
        match (record, self.phase) {
            (Record::Start { unit, close, tag }, _) => self.start(unit, close, tag),
            (_, Phase::Closed) => Err(1),
            (Record::Clock { time }, _) => self.clock(time, output),
            (Record::Order { .. }, _) => self.order(record),
            (Record::Cancel { number }, _) => self.cancel(number),
            (Record::Quote { bid, offer }, _) => self.quote(bid, offer),
            (Record::Opening { .. }, Phase::Open) => Err(3),
            (Record::Opening { price, volume }, _) => self.sale(price, volume, true, output),
            (Record::Trade { .. }, Phase::Unopened) => Err(2),
            (Record::Trade { price, volume }, _) => self.sale(price, volume, false, output),
            (Record::Close, _) => {
                self.close(output);
                Ok(())
            }
        }
    }

    fn start(&mut self, unit: u32, close: u32, tag: u32) -> Result<(), u64> {
        if !(unit == 10 || unit == 100) || !priced(close) || tag == 0 {
            return Err(4);
        }
        self.unit = unit;
        self.latest = close;
        self.phase = Phase::Unopened;
        Ok(())
    }

    fn order(&mut self, record: Record) -> Result<(), u64> {
        let Record::Order { side, kind, shares, limit, stop } = record else { return Ok(()) };
        let (limited, stopped) = (kind == 2 || kind == 4, kind == 3 || kind == 4);
        let lawful = (1..=4).contains(&kind) && side != 0 && shares != 0 && shares < self.unit;
        if !lawful || limited && !priced(limit) || stopped && !priced(stop) {
            return Err(4);
        }
        if self.book.len() == BOOK {
            return Err(8);
        }
        self.accepted += 1;
        self.book.push(Order {
            number: self.accepted,
            side,
            shares: shares.into(),
            limited,
            active: !stopped,
            limit,
            stop,
            receipt: self.time,
        });
        Ok(())
    }

    fn cancel(&mut self, number: u32) -> Result<(), u64> {
        let at = self.book.binary_search_by_key(&number, |order| order.number).map_err(|_| 9_u64)?;
        self.book.remove(at);
        Ok(())
    }

    fn quote(&mut self, bid: u32, offer: u32) -> Result<(), u64> {
        if bid != 0 && !priced(bid) || offer != 0 && !priced(offer) {
            return Err(4);
        }
        if bid != 0 && offer != 0 && bid >= offer {
            return Err(6);
        }
        self.bid = bid;
        self.offer = offer;
        Ok(())
    }

    fn clock(&mut self, time: u32, output: &mut Output) -> Result<(), u64> {
        if time > 86_399_999 {
            return Err(4);
        }
        if time < self.time {
            return Err(5);
        }
        self.time = time;
        if self.phase == Phase::Open {
            self.fill_at_the_quote(output, |order| time - order.receipt > 30_000);
        }
        Ok(())
    }

    fn close(&mut self, output: &mut Output) {
        let open = self.phase == Phase::Open;
        let (bid, offer) = (self.bid, self.offer);
        for order in std::mem::take(&mut self.book) {
            match at_the_quote(&order, bid, offer) {
                Some((price, mark)) if open => {
                    output.row(&order, price, mark);
                    self.post(&order, price);
                }
                _ => output.row(&order, 0, 6),
            }
        }
        self.phase = Phase::Closed;
    }

    fn fill_at_the_quote(&mut self, output: &mut Output, due: impl Fn(&Order) -> bool) {
        let mut book = std::mem::take(&mut self.book);
        book.retain(|order| match at_the_quote(order, self.bid, self.offer) {
            Some((price, mark)) if due(order) => {
                output.row(order, price, mark);
                self.post(order, price);
                false
            }
            _ => true,
        });
        self.book = book;
    }

    fn sale(&mut self, price: u32, volume: u32, opening: bool, output: &mut Output) -> Result<(), u64> {
        if !priced(price) || volume < self.unit || volume > 100_000_000 {
            return Err(4);
        }
        let rising = price > self.latest || price == self.latest && self.rising;
        let mut sums = [0, 0];
        for order in self.book.iter().filter(|order| order.eligible(price, rising)) {
            sums[usize::from(order.side != 1)] += order.shares;
        }
        let reach = sums[0].min(sums[1]) + u64::from(volume);
        let mut ahead = [0, 0];
        let mut book = std::mem::take(&mut self.book);
        book.retain_mut(|order| {
            if order.eligible(price, rising) {
                let before = &mut ahead[usize::from(order.side != 1)];
                let fill = *before < reach || opening && !order.limited;
                *before += order.shares;
                if fill {
                    output.row(order, price, if opening { 1 } else { 2 });
                    self.post(order, price);
                }
                return !fill;
            }
            order.elect(price);
            true
        });
        self.book = book;
        self.phase = Phase::Open;
        self.latest = price;
        self.rising = rising;
        Ok(())
    }

    fn post(&mut self, order: &Order, price: u32) {
        let (shares, money) = (order.shares as i64, order.shares as i64 * i64::from(price));
        if order.side == 1 {
            self.shares -= shares;
            self.money += money;
        } else {
            self.shares += shares;
            self.money -= money;
        }
    }
}

/// The price and the mark at which the quote fills an order, due or not.
fn at_the_quote(order: &Order, bid: u32, offer: u32) -> Option<(u32, u64)> {
    let (price, mark) = if order.side == 1 { (offer, 3) } else { (bid, 4) };
    (order.active && !order.limited && order.side != 3 && price != 0).then_some((price, mark))
}
