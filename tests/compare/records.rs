//! Reading the words and records of a day file (docs/DAY-FILES.md), for both players.

pub const LONGEST: usize = 65_536;

/// A fault of the file: its number (15, 16 or 17) and the byte place of the record in which it stands.
#[derive(Clone, Copy, Debug, PartialEq, Eq)]
pub struct Fault {
    pub number: u32,
    pub place: usize,
}

#[derive(Clone, Copy, Debug, PartialEq, Eq)]
pub enum Record {
    Start { unit: u32, close: u32, tag: u32 },
    Clock { time: u32 },
    Order { side: u32, kind: u32, shares: u32, limit: u32, stop: u32 },
    Cancel { number: u32 },
    Quote { bid: u32, offer: u32 },
    Opening { price: u32, volume: u32 },
    Trade { price: u32, volume: u32 },
    Close,
}

/// Gives the records of a file one after the other.
pub struct Reader<'a> {
    file: &'a [u8],
    /// Where the record that is being read begins.
    place: usize,
    /// Where its next word begins.
    next: usize,
}

impl<'a> Reader<'a> {
    pub fn new(file: &'a [u8]) -> Self {
        Reader { file, place: 0, next: 0 }
    }

    /// The next record, or none at the end of the file.
    pub fn record(&mut self) -> Result<Option<Record>, Fault> {
        self.place = self.next;
        if self.file.len() > LONGEST {
            return Err(Fault { number: 15, place: LONGEST });
        }
        if self.place == 0 {
            let (unit, close, tag) = (self.word(12)?, self.word(13)?, self.word(14)?);
            return Ok(Some(Record::Start { unit, close, tag }));
        }
        if self.place == self.file.len() {
            return Ok(None);
        }
        let (kind, value) = self.any_word()?;
        let record = match kind {
            1 => Record::Clock { time: value },
            2 => self.order(value)?,
            5 => Record::Cancel { number: value },
            6 => Record::Quote { bid: value, offer: self.word(7)? },
            8 => Record::Opening { price: value, volume: self.word(10)? },
            9 => Record::Trade { price: value, volume: self.word(10)? },
            11 if value == 0 => Record::Close,
            _ => return Err(self.fault(17)),
        };
        Ok(Some(record))
    }

    /// An order whose first word has this value. Its bits outside side, kind and shares are zero exactly when the
    /// numbers that stand at the places of side and kind are no greater than 3 and 7.
    fn order(&mut self, value: u32) -> Result<Record, Fault> {
        let (side, kind, shares) = (value / 65_536, value / 256 % 256, value % 256);
        if side > 3 || kind > 7 {
            return Err(self.fault(17));
        }
        let limit = if kind == 2 || kind == 4 { self.word(3)? } else { 0 };
        let stop = if kind == 3 || kind == 4 { self.word(4)? } else { 0 };
        Ok(Record::Order { side, kind, shares, limit, stop })
    }

    /// The value of the next word, which must be of this kind.
    fn word(&mut self, kind: u32) -> Result<u32, Fault> {
        match self.any_word()? {
            (found, value) if found == kind => Ok(value),
            _ => Err(self.fault(17)),
        }
    }

    /// The kind and the value of the next word.
    fn any_word(&mut self) -> Result<(u32, u32), Fault> {
        let Some(bytes) = self.file.get(self.next..self.next + 4) else {
            return Err(self.fault(16));
        };
        self.next += 4;
        let word = u32::from_be_bytes([bytes[0], bytes[1], bytes[2], bytes[3]]);
        Ok((word >> 28, word & 0x0FFF_FFFF))
    }

    fn fault(&self, number: u32) -> Fault {
        Fault { number, place: self.place }
    }
}
