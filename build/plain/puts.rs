//! The keys that each rank puts.

use crate::script::{by_rank, Script, Verb};

/// No call: behind every call of a rank.
pub const NONE: u32 = u32::MAX;

/// A key that a rank puts, not reserved.
#[derive(Clone, Copy)]
pub struct Put {
    key: u32,
    /// The first put of it.
    pub first: u32,
    /// The first commit after that, or NONE.
    pub commit: u32,
    /// Who sees it.
    pub scope: u32,
    /// Whether it is put more than once.
    pub is_again: bool,
}

/// A put of a key that was put before.
pub struct Rewrite {
    pub rank: u32,
    pub later: u32,
    pub first: u32,
    pub key: u32,
}

/// The keys of all ranks.
pub struct Puts {
    /// Where those of each rank begin, and behind them all the end.
    starts: Vec<u32>,
    /// Rank by rank, by the numbers of the keys.
    puts: Vec<Put>,
    /// In the order of their lines.
    pub rewrites: Vec<Rewrite>,
}

impl Puts {
    pub fn of(script: &Script) -> Puts {
        let mut found = Puts {
            starts: Vec::new(),
            puts: Vec::new(),
            rewrites: Vec::new(),
        };
        let mut all = Vec::new();
        for (rank, places) in by_rank(&script.starts, &script.places.stores) {
            found.starts.push(found.puts.len() as u32);
            all.clear();
            find_puts(script, rank, places, &mut all);
            found.take(rank, &mut all);
        }
        found.starts.push(found.puts.len() as u32);
        found
    }

    /// Takes all puts of the next rank.
    fn take(&mut self, rank: u32, all: &mut [Put]) {
        all.sort_unstable_by_key(|it| (it.key, it.first));
        let (start, again) = (self.puts.len(), self.rewrites.len());
        for it in all.iter() {
            match self.puts[start..].last_mut() {
                Some(last) if last.key == it.key => {
                    last.is_again = true;
                    let (later, first) = (it.first, last.first);
                    self.rewrites.push(Rewrite {
                        rank,
                        later,
                        first,
                        key: it.key,
                    });
                }
                _ => self.puts.push(*it),
            }
        }
        self.rewrites[again..].sort_unstable_by_key(|it| it.later);
    }

    /// What a rank puts under a key.
    pub fn find(&self, rank: u32, key: u32) -> Option<u32> {
        let (start, end) = (self.starts[rank as usize], self.starts[rank as usize + 1]);
        let puts = &self.puts[start as usize..end as usize];
        let at = puts.partition_point(|it| it.key < key);
        puts.get(at)
            .filter(|it| it.key == key)
            .map(|_| start + at as u32)
    }

    /// What was found.
    pub fn get(&self, put: u32) -> &Put {
        &self.puts[put as usize]
    }
}

/// Finds the puts of a rank among its puts and commits, each as if it were the only one of its key.
fn find_puts(script: &Script, rank: u32, places: &[u32], found: &mut Vec<Put>) {
    let mut open = 0;
    for place in places {
        let number = place - script.starts[rank as usize];
        let call = script.calls[*place as usize];
        match call.verb() {
            Verb::Put => {
                let (first, scope) = (number, call.bits());
                found.push(Put {
                    key: call.about,
                    first,
                    commit: NONE,
                    scope,
                    is_again: false,
                });
            }
            Verb::Commit => {
                found[open..].iter_mut().for_each(|it| it.commit = number);
                open = found.len();
            }
            _ => {}
        }
    }
}
