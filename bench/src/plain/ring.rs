//! A queue of words in its area of the lent store.

/// A queue: its words lie in its area of the store, from `head` on, round its end.
#[derive(Clone, Copy, Debug, PartialEq, Eq)]
pub struct Ring {
    pub head: u32,
    pub level: u32,
    pub cap: u32,
    pub mark: u32,
}

impl Ring {
    pub fn new(cap: u32, mark: u32) -> Ring {
        Ring {
            head: 0,
            level: 0,
            cap,
            mark,
        }
    }

    pub fn is_ok(&self, least: u32) -> bool {
        (self.cap >= least)
            & (self.cap <= 1024)
            & (self.mark <= self.cap)
            & (self.head < self.cap)
            & (self.level <= self.cap)
    }

    pub fn is_empty(&self) -> bool {
        self.level == 0
    }

    pub fn is_full(&self) -> bool {
        self.level == self.cap
    }

    pub fn is_below(&self) -> bool {
        self.level < self.mark
    }

    pub fn is_above(&self) -> bool {
        self.level > self.mark
    }

    pub fn room(&self) -> u32 {
        self.cap - self.level
    }

    /// The place `i` after the head, without a division.
    pub fn place(&self, i: u32) -> u32 {
        let at = self.head + i;
        if at < self.cap {
            at
        } else {
            at - self.cap
        }
    }

    /// The word `i` after the first.
    pub fn word(&self, store: &[u32], base: u32, i: u32) -> u32 {
        store[(base + self.place(i)) as usize]
    }

    pub fn push(&mut self, store: &mut [u32], base: u32, word: u32) {
        store[(base + self.place(self.level)) as usize] = word;
        self.level += 1;
    }

    pub fn drop_words(&mut self, n: u32) {
        self.head = self.place(n);
        self.level -= n;
    }

    pub fn take(&mut self, store: &[u32], base: u32) -> u32 {
        let word = self.word(store, base, 0);
        self.drop_words(1);
        word
    }

    pub fn clear(&mut self) {
        self.head = 0;
        self.level = 0;
    }
}
