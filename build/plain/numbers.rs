//! Numbers for words, and for lists of numbers, by a hash table: equal ones have the same number.

/// What lists can be made of: it mixes the bits of a list into a hash.
pub trait Mix: Copy + Eq {
    fn mix(list: &[Self]) -> u64;
}

/// One step of the hash.
fn stir(hash: u64, more: u64) -> u64 {
    (hash ^ more)
        .wrapping_mul(0x9E37_79B9_7F4A_7C15)
        .rotate_left(29)
}

impl Mix for u8 {
    fn mix(list: &[u8]) -> u64 {
        let (chunks, rest) = list.as_chunks::<8>();
        let hash = chunks.iter().fold(list.len() as u64, |hash, it| {
            stir(hash, u64::from_le_bytes(*it))
        });
        let last = rest.iter().fold(0, |sum, it| sum << 8 | u64::from(*it));
        stir(stir(hash, last), 1)
    }
}

impl Mix for u64 {
    fn mix(list: &[u64]) -> u64 {
        stir(
            list.iter()
                .fold(list.len() as u64, |hash, it| stir(hash, *it)),
            1,
        )
    }
}

/// Lists, each with a number from 0.
pub struct Numbers<T> {
    items: Vec<T>,
    /// Where each list ends among the items; it begins where the one before it ends.
    ends: Vec<u32>,
    /// The numbers of the lists, each plus 1, at the place of its hash or behind it; 0 is free. The
    /// size is a power of 2, and at least half is free.
    table: Vec<u32>,
    /// The number that was asked for last: mostly it is asked for again.
    last: u32,
}

impl<T: Mix> Numbers<T> {
    pub fn new() -> Numbers<T> {
        Numbers {
            items: Vec::new(),
            ends: Vec::new(),
            table: vec![0; 16],
            last: 0,
        }
    }

    /// How many lists have a number.
    pub fn len(&self) -> usize {
        self.ends.len()
    }

    /// The list of a number.
    pub fn list(&self, number: u32) -> &[T] {
        let at = number as usize;
        let start = if at == 0 { 0 } else { self.ends[at - 1] };
        &self.items[start as usize..self.ends[at] as usize]
    }

    /// The number of a list, which is the next one if it has none yet.
    pub fn number_of(&mut self, list: &[T]) -> u32 {
        if (self.last as usize) < self.len() && self.list(self.last) == list {
            return self.last;
        }
        let place = self.place_of(list);
        if self.table[place] == 0 {
            self.items.extend_from_slice(list);
            self.ends.push(self.items.len() as u32);
            self.last = self.len() as u32 - 1;
            self.table[place] = self.len() as u32;
            self.grow();
        } else {
            self.last = self.table[place] - 1;
        }
        self.last
    }

    /// The number of a list that may have none.
    pub fn find(&self, list: &[T]) -> Option<u32> {
        self.table[self.place_of(list)].checked_sub(1)
    }

    /// The place of a list in the table, or the free one where it belongs.
    fn place_of(&self, list: &[T]) -> usize {
        let mask = self.table.len() - 1;
        let mut place = T::mix(list) as usize & mask;
        while self.table[place] != 0 && self.list(self.table[place] - 1) != list {
            place = (place + 1) & mask;
        }
        place
    }

    /// Makes the table larger, if half of it is used.
    fn grow(&mut self) {
        if 2 * self.len() < self.table.len() {
            return;
        }
        let mask = 2 * self.table.len() - 1;
        self.table = vec![0; mask + 1];
        for number in 0..self.len() as u32 {
            let mut place = T::mix(self.list(number)) as usize & mask;
            while self.table[place] != 0 {
                place = (place + 1) & mask;
            }
            self.table[place] = number + 1;
        }
    }
}
