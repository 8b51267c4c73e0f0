//! A fuzzer's bytes, read as numbers, files, words and lengths. Past the end every byte is 0, so any bytes have a meaning.

use differential::automata::{damaged, everything, full, ring, window, Plain};
use differential::entries::Terms;
use differential::random::Random;
use differential::writing::LONGEST;
use second::automaton::{MAX_LETTERS, MAX_STATES};
use second::lasso::MAX_LASSO;
use second::walk::{MAX_SLOTS, SLOT_BYTES};

pub struct Source<'a> {
    data: &'a [u8],
    /// The automata of the files so far, which later files may resemble.
    automata: Vec<Plain>,
}

impl<'a> Source<'a> {
    pub fn new(data: &'a [u8]) -> Source<'a> {
        Source {
            data,
            automata: Vec::new(),
        }
    }

    pub fn is_empty(&self) -> bool {
        self.data.is_empty()
    }

    pub fn byte(&mut self) -> u8 {
        match self.data.split_first() {
            Some((&byte, rest)) => {
                self.data = rest;
                byte
            }
            None => 0,
        }
    }

    /// A number of two bytes.
    pub fn number(&mut self) -> usize {
        usize::from(self.byte()) + 256 * usize::from(self.byte())
    }

    /// The next bytes, fewer at the end.
    pub fn bytes(&mut self, length: usize) -> &'a [u8] {
        let (taken, rest) = self.data.split_at(length.min(self.data.len()));
        self.data = rest;
        taken
    }

    /// Any bytes, or the file of an automaton with its records in order, spoilt now and then.
    pub fn file(&mut self) -> Vec<u8> {
        self.file_by(|_, plain| plain.file())
    }

    /// The same with the records in any order.
    pub fn shuffled_file(&mut self) -> Vec<u8> {
        self.file_by(|source, plain| plain.shuffled_file(&mut source.random()))
    }

    fn file_by(&mut self, write: impl Fn(&mut Self, &Plain) -> Vec<u8>) -> Vec<u8> {
        let tag = self.byte();
        if tag.is_multiple_of(8) {
            let length = usize::from(self.byte());
            return self.bytes(length).to_vec();
        }
        let plain = self.automaton(tag % 8);
        let file = write(self, &plain);
        self.automata.push(plain);
        if tag < 224 {
            file
        } else {
            damaged(&mut self.random(), &file)
        }
    }

    /// Drawings that two bytes stand for.
    pub fn random(&mut self) -> Random {
        Random::new(0, self.number())
    }

    fn automaton(&mut self, tag: u8) -> Plain {
        match tag {
            1 => self.listed(),
            2 | 3 => self.listed().trimmed(),
            4 => self.regular(),
            _ => self.changed(tag),
        }
    }

    /// The letter count of the first automaton, or another one.
    fn letters(&mut self) -> usize {
        let byte = self.byte();
        match self.automata.first() {
            Some(first) if byte < 128 => first.letters,
            _ => 1 + usize::from(byte) % MAX_LETTERS,
        }
    }

    /// An automaton whose transitions are listed, two bytes each.
    fn listed(&mut self) -> Plain {
        let states = 1 + usize::from(self.byte()) % MAX_STATES;
        let letters = self.letters();
        let mut plain = Plain::bare(states, letters, usize::from(self.byte()) % states);
        let accepting = self.number() | self.number() << 16;
        plain.accepting = accepting as u32 & u32::MAX >> (MAX_STATES - states);
        for _ in 0..self.byte() {
            let number = self.number();
            let (from, letter, to) = (number % 32 % states, number / 1024 % letters, number / 32 % 32 % states);
            plain.rows[from * letters + letter] |= 1 << to;
        }
        plain
    }

    /// An automaton with many transitions that needs few bytes; some have all of them, of about as many states and letters as there can be.
    fn regular(&mut self) -> Plain {
        let (tag, size) = (self.byte(), usize::from(self.byte()));
        match tag % 3 {
            0 if size / 32 == 6 => full(MAX_STATES - size % 4, MAX_LETTERS - size / 4 % 2),
            0 => everything(self.letters()),
            1 => ring(1 + size % MAX_STATES, self.letters()),
            _ => window(2 + size % 12),
        }
    }

    /// One of the automata so far, changed.
    fn changed(&mut self, tag: u8) -> Plain {
        let place = usize::from(self.byte());
        let Some(plain) = self.automata.get(place % self.automata.len().max(1)).cloned() else {
            return everything(2);
        };
        let random = &mut self.random();
        match (tag, random.below(3)) {
            (5, _) => plain.grown(random),
            (6, _) => plain.nearly(random),
            (_, 0) => plain.without_a_state(random),
            (_, 1) => plain.without_a_transition(random),
            _ => plain.renumbered(random),
        }
    }

    pub fn bound(&mut self) -> u64 {
        let byte = self.byte();
        match byte {
            0..=239 => u64::from(byte) % 16,
            _ => 1 << (4 * (byte - 240)),
        }
    }

    /// Few slots, any length, or about as many slots as are used.
    fn work(&mut self) -> usize {
        let byte = usize::from(self.byte());
        match byte {
            0..=223 => byte * SLOT_BYTES,
            224..=247 => self.number(),
            _ => (MAX_SLOTS - 4 + byte % 8) * SLOT_BYTES + byte % 3,
        }
    }

    pub fn terms(&mut self) -> Terms {
        Terms {
            bound: self.bound(),
            work: self.work(),
            word: match usize::from(self.byte()) {
                small @ 0..=199 => small,
                large => (large - 199) * 100,
            },
        }
    }

    /// A length of an output buffer: about that of the file, any, or about that of the longest file.
    pub fn room(&mut self, file_length: usize) -> usize {
        let byte = usize::from(self.byte());
        match byte {
            0..=191 => (file_length + byte % 8).saturating_sub(4),
            192..=239 => self.number(),
            _ => LONGEST - 4 + byte % 8,
        }
    }

    /// A word: any bytes, or few letters repeated up to any length or to one about the limit.
    pub fn word(&mut self) -> Vec<u8> {
        let tag = usize::from(self.byte());
        let part = self.bytes(tag % 16);
        let length = match tag / 16 {
            0..=13 => part.len(),
            14 => self.number() % MAX_LASSO,
            _ => MAX_LASSO - 1 + tag % 4,
        };
        if length == part.len() || part.is_empty() {
            return part.to_vec();
        }
        let letters = self.automata.first().map_or(1, |plain| plain.letters) as u8;
        (0..length).map(|place| part[place % part.len()] % letters).collect()
    }
}
