//! Writing day files: each record as its words.

#[derive(Clone, Default)]
pub struct Words(pub Vec<u32>);

/// A word of this kind. A value that is too wide is cut to 28 bits.
pub fn word(kind: u32, value: u32) -> u32 {
    kind << 28 | value & 0x0FFF_FFFF
}

impl Words {
    pub fn start(unit: u32, close: u32, tag: u32) -> Words {
        Words(vec![word(12, unit), word(13, close), word(14, tag)])
    }

    pub fn push(&mut self, kind: u32, value: u32) -> &mut Words {
        self.0.push(word(kind, value));
        self
    }

    pub fn clock(&mut self, time: u32) -> &mut Words {
        self.push(1, time)
    }

    /// An order of any kind from 0 to 7; limit and stop are written where the kind has them.
    pub fn order(&mut self, side: u32, kind: u32, shares: u32, limit: u32, stop: u32) -> &mut Words {
        self.push(2, side << 16 | kind << 8 | shares);
        if kind == 2 || kind == 4 {
            self.push(3, limit);
        }
        if kind == 3 || kind == 4 {
            self.push(4, stop);
        }
        self
    }

    pub fn cancel(&mut self, number: u32) -> &mut Words {
        self.push(5, number)
    }

    pub fn quote(&mut self, bid: u32, offer: u32) -> &mut Words {
        self.push(6, bid).push(7, offer)
    }

    pub fn opening(&mut self, price: u32, volume: u32) -> &mut Words {
        self.push(8, price).push(10, volume)
    }

    pub fn trade(&mut self, price: u32, volume: u32) -> &mut Words {
        self.push(9, price).push(10, volume)
    }

    pub fn close(&mut self) -> &mut Words {
        self.push(11, 0)
    }

    pub fn bytes(&self) -> Vec<u8> {
        self.0.iter().flat_map(|word| word.to_be_bytes()).collect()
    }
}
