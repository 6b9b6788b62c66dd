//! Random, damaged and truncated bytes.

use crate::{
    forms::{self, AnyForm},
    generate::Generator,
    limit::Limit,
    ours,
    random::Random,
    table::Table,
    texts,
};

/// All 40 format codes, and a few bytes that are none.
const CODES: [u8; 46] = [
    0x00, 0x40, 0x41, 0x42, 0x43, 0x44, 0x45, 0x50, 0x51, 0x52, 0x53, 0x54, 0x55, 0x56, 0x60, 0x61, 0x70, 0x71, 0x72, 0x73, 0x74,
    0x80, 0x81, 0x82, 0x83, 0x84, 0x94, 0x98, 0xa0, 0xa1, 0xa3, 0xb0, 0xb1, 0xb3, 0xc0, 0xc1, 0xd0, 0xd1, 0xe0, 0xf0, 0x01, 0x02,
    0x03, 0x46, 0x7f, 0xff,
];

pub struct Damage {
    random: Random,
    tables: Generator,
    forms: AnyForm,
    bytes: Vec<u8>,
    spare: Vec<u8>,
}

impl Damage {
    pub fn new(seed: u64) -> Self {
        Damage {
            random: Random::new(!seed),
            tables: Generator::all(seed),
            forms: AnyForm(Random::new(seed ^ 0xf0)),
            bytes: Vec::new(),
            spare: Vec::new(),
        }
    }

    pub fn random(&mut self) -> &mut Random {
        &mut self.random
    }

    /// The next run of bytes: sometimes good, mostly not.
    pub fn bytes(&mut self) -> &[u8] {
        match self.random.below(40) {
            0..=3 => self.noise(),
            4..=10 => self.codes(),
            11 => self.deep(),
            12..=15 => self.written(),
            16..=19 => {
                self.written();
                let length = self.random.below(self.bytes.len());
                self.bytes.truncate(length);
            }
            20..=24 => {
                self.spoiled();
                if self.random.once_in(4) {
                    self.hurt();
                }
            }
            _ => {
                self.written();
                for _ in 0..self.random.within(1, 3) {
                    self.hurt();
                }
            }
        }
        &self.bytes
    }

    fn noise(&mut self) {
        self.bytes.clear();
        for _ in 0..self.random.below(24) {
            self.bytes.push(self.random.byte());
        }
    }

    /// Codes, small sizes and counts, in any order.
    fn codes(&mut self) {
        self.bytes.clear();
        for _ in 0..self.random.within(1, 24) {
            let byte = match self.random.below(3) {
                0 => self.random.below(12) as u8,
                _ => self.random.of(&CODES),
            };
            self.bytes.push(byte);
        }
    }

    /// Lists, arrays and described values, one in the other, to about the last level of a limit or beyond it. An array of one element has the bytes of a
    /// list of one value, but for its code.
    fn deep(&mut self) {
        let inner: [&[u8]; 12] = [
            &[0x40],
            &[0x45],
            &[0x50, 7],
            &[0xc0, 1, 0],
            &[0xe0, 1, 0],
            &[0xe0, 2, 0, 0x70],
            &[0xe0, 1, 1],
            &[0xc1, 1, 2],
            &[0x46],
            &[0x56, 2],
            &[0xa1, 3, b'x', 0xe2, 0x82],
            &[0xa3, 2, b'x', 0x80],
        ];
        let inner = self.random.of(&inner);
        let wraps =
            self.random.of(&[&[0xc0][..], &[0xe0], &[0xc0, 0xe0], &[0xd0, 0xe0, 0xe0], &[0xf0, 0xc0], &[0x00, 0xe0, 0xc0]]);
        let last = Limit::last_level(&mut self.random) as usize;
        let levels = self.random.within(last.saturating_sub(3), last + 1);
        self.bytes.clear();
        self.bytes.extend_from_slice(inner);
        for level in 0..levels {
            let code = wraps[level % wraps.len()];
            let size = self.bytes.len();
            self.spare.clear();
            self.spare.push(code);
            match code {
                0x00 => self.spare.push(0x40),
                0xd0 | 0xf0 => {
                    self.spare.extend_from_slice(&(size as u32 + 4).to_be_bytes());
                    self.spare.extend_from_slice(&[0, 0, 0, 1]);
                }
                // a size beyond the byte is wrong, which is as good
                _ => self.spare.extend_from_slice(&[(size + 1) as u8, 1]),
            }
            self.spare.append(&mut self.bytes);
            std::mem::swap(&mut self.bytes, &mut self.spare);
        }
        if self.random.once_in(3) {
            self.hurt();
        }
    }

    /// A table's bytes, in forms that we read, with bad text in them where there is any.
    fn spoiled(&mut self) {
        const LONG: usize = 2_000;
        let mut table = loop {
            let table = self.tables.table();
            if table.words.len() <= LONG && table.text.len() <= LONG {
                break table.clone();
            }
        };
        for _ in 0..self.random.within(1, 2) {
            texts::spoil(&mut table, &mut self.random);
        }
        self.bytes.clear();
        forms::write(&table, &mut self.forms, &mut self.bytes);
    }

    /// A table's bytes, as we write them or in other forms that we read; long ones are left out, since there are enough of them elsewhere.
    fn written(&mut self) {
        const LONG: u64 = 2_000;
        let table: &Table = loop {
            let table = self.tables.table();
            if ours::size(Limit::HIGHEST, table).length <= LONG {
                break table;
            }
        };
        self.bytes.clear();
        if self.random.once_in(2) {
            let mut table = table.clone();
            self.forms.untell(&mut table);
            return forms::write(&table, &mut self.forms, &mut self.bytes);
        }
        self.bytes.resize(ours::size(Limit::HIGHEST, table).length as usize, 0);
        ours::write(Limit::HIGHEST, table, &mut self.bytes);
    }

    /// One change at one place.
    fn hurt(&mut self) {
        if self.bytes.is_empty() {
            return;
        }
        let at = self.random.below(self.bytes.len());
        match self.random.below(8) {
            0 => self.bytes[at] = self.random.byte(),
            1 => self.bytes[at] = self.random.of(&CODES),
            2 => self.bytes[at] ^= 1 << self.random.below(8),
            3 => self.bytes[at] = self.bytes[at].wrapping_add(1),
            4 => self.bytes[at] = self.bytes[at].wrapping_sub(1),
            5 => drop(self.bytes.remove(at)),
            6 => self.bytes.insert(at, self.random.of(&CODES)),
            _ => {
                // a stretch again, behind itself
                let to = (at + self.random.within(1, 8)).min(self.bytes.len());
                self.spare.clear();
                self.spare.extend_from_slice(&self.bytes[at..to]);
                self.bytes.splice(to..to, self.spare.drain(..));
            }
        }
    }
}
