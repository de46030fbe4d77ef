//! The sets of fences: as files spell them, and as spans of ranks.

use crate::faults::Wrong;
use crate::numbers::{Mix, Numbers};
use crate::words::{fit, item, EVERY, NAME_BYTES};

/// How many texts of sets are remembered, and the most bytes of one.
const REMEMBERED: usize = 1 << 12;
const LONGEST: usize = 1 << 13;

/// A text of a set, and the number of what it spells.
#[derive(Clone, Default)]
struct Text {
    bytes: Vec<u8>,
    number: u32,
}

/// The sets of a file as they are spelt, each a list of items: the job in the upper 32 bits, and in
/// the lower ones the rank's number in it, or EVERY.
pub struct Spelt {
    pub lists: Numbers<u64>,
    /// What was spelt lately, by the hash of the text.
    texts: Vec<Text>,
    /// Room for the items of a set.
    items: Vec<u64>,
}

impl Spelt {
    pub fn new() -> Spelt {
        Spelt {
            lists: Numbers::new(),
            texts: vec![Text::default(); REMEMBERED],
            items: Vec::new(),
        }
    }

    /// The number of the set that is all of a job.
    pub fn whole(&mut self, job: u32) -> u32 {
        self.lists.number_of(&[pair(job, EVERY)])
    }

    /// The number of the set that a word spells, which isn't `all`. `job_of` gives each name of a
    /// job its number.
    pub fn set(&mut self, word: &[u8], job_of: impl FnMut(&[u8]) -> u32) -> Result<u32, Wrong> {
        if word.len() > LONGEST {
            return self.parse(word, job_of);
        }
        let place = u8::mix(word) as usize % REMEMBERED;
        if self.texts[place].bytes != word {
            let number = self.parse(word, job_of)?;
            self.texts[place] = Text {
                bytes: word.to_vec(),
                number,
            };
        }
        Ok(self.texts[place].number)
    }

    /// Reads the items of a set.
    fn parse(&mut self, word: &[u8], mut job_of: impl FnMut(&[u8]) -> u32) -> Result<u32, Wrong> {
        let mut is_long = Ok(());
        self.items.clear();
        for part in word.split(|it| *it == b',') {
            let found = item(part)?;
            is_long = is_long.and(fit(found.job, NAME_BYTES));
            self.items.push(pair(job_of(found.job), found.number));
        }
        is_long?;
        Ok(self.lists.number_of(&self.items))
    }
}

/// Two numbers in one: an item of a set, or a span of ranks.
pub fn pair(upper: u32, lower: u32) -> u64 {
    (u64::from(upper) << 32) | u64::from(lower)
}

/// The two numbers of a pair.
pub fn parts_of(pair: u64) -> (u32, u32) {
    ((pair >> 32) as u32, pair as u32)
}

/// Sets of ranks, each as its spans in rank order, none of which touch.
pub struct Sets {
    spans: Numbers<u64>,
}

impl Sets {
    pub fn new() -> Sets {
        Sets {
            spans: Numbers::new(),
        }
    }

    pub fn len(&self) -> usize {
        self.spans.len()
    }

    /// The number of a set that is given by spans in any order, each a pair of its first rank and
    /// its end.
    pub fn number_of(&mut self, spans: &mut [u64]) -> u32 {
        spans.sort_unstable();
        let mut kept = 0;
        for at in 0..spans.len() {
            let (start, end) = parts_of(spans[at]);
            match kept {
                _ if start == end => {}
                1.. if parts_of(spans[kept - 1]).1 >= start => {
                    let (first, last) = parts_of(spans[kept - 1]);
                    spans[kept - 1] = pair(first, last.max(end));
                }
                _ => {
                    spans[kept] = spans[at];
                    kept += 1;
                }
            }
        }
        self.spans.number_of(&spans[..kept])
    }

    /// The spans of a set: first ranks and ends.
    pub fn spans(&self, set: u32) -> impl Iterator<Item = (u32, u32)> + '_ {
        self.spans.list(set).iter().map(|it| parts_of(*it))
    }

    /// The ranks of a set, in rank order.
    pub fn ranks(&self, set: u32) -> impl Iterator<Item = u32> + '_ {
        self.spans(set).flat_map(|(start, end)| start..end)
    }

    /// How many ranks a set has.
    pub fn size(&self, set: u32) -> u32 {
        self.spans(set).map(|(start, end)| end - start).sum()
    }

    /// Whether a rank is in a set.
    pub fn has(&self, set: u32, rank: u32) -> bool {
        let spans = self.spans.list(set);
        let at = spans.partition_point(|it| parts_of(*it).0 <= rank);
        at > 0 && rank < parts_of(spans[at - 1]).1
    }
}
