//! The fences: which calls meet.

use crate::script::{by_rank, Script, COLLECTS};

/// The fences of all sets.
pub struct Fences {
    /// The first fence of each set, and behind them all the number of fences.
    firsts: Vec<u32>,
    /// How many ranks each set has.
    sizes: Vec<u32>,
    /// How many calls each fence has.
    calls: Vec<u32>,
    /// Whether each fence collects: every call of it says so.
    collects: Vec<bool>,
}

impl Fences {
    /// Finds the fences, and notes in each call which fence of its rank over its set it is.
    pub fn of(script: &mut Script) -> Fences {
        let sets = script.sets.len();
        let firsts = note_turns(script);
        let count = firsts[sets] as usize;
        let sizes = (0..sets as u32).map(|it| script.sets.size(it)).collect();
        let (calls, collects) = (vec![0; count], vec![true; count]);
        let mut found = Fences {
            firsts,
            sizes,
            calls,
            collects,
        };
        for place in &script.places.fences {
            let call = script.calls[*place as usize];
            let fence = found.fence(call.about, call.more());
            found.calls[fence] += 1;
            found.collects[fence] &= call.bits() == COLLECTS;
        }
        found
    }

    /// The fence of a set, by its turn.
    pub fn fence(&self, set: u32, turn: u32) -> usize {
        (self.firsts[set as usize] + turn) as usize
    }

    /// How many fences there are.
    pub fn len(&self) -> usize {
        self.calls.len()
    }

    /// How many ranks a set has.
    pub fn size(&self, set: u32) -> u32 {
        self.sizes[set as usize]
    }

    /// Whether every member of a fence's set calls it.
    pub fn is_full(&self, set: u32, turn: u32) -> bool {
        self.calls[self.fence(set, turn)] == self.sizes[set as usize]
    }

    pub fn collects(&self, set: u32, turn: u32) -> bool {
        self.collects[self.fence(set, turn)]
    }
}

/// Notes the turn of each call of a fence. Answers the first fence of each set, and behind them the
/// number of fences.
fn note_turns(script: &mut Script) -> Vec<u32> {
    let sets = script.sets.len();
    // For each set how many fences the last rank has that calls one, that rank plus 1, and the most
    // that a rank has.
    let (mut turns, mut ranks, mut most) = (vec![0; sets], vec![0; sets], vec![0; sets]);
    for (rank, places) in by_rank(&script.starts, &script.places.fences) {
        for place in places {
            let call = &mut script.calls[*place as usize];
            let set = call.about as usize;
            if ranks[set] != rank + 1 {
                (ranks[set], turns[set]) = (rank + 1, 0);
            }
            call.set_more(turns[set]);
            turns[set] += 1;
            most[set] = turns[set].max(most[set]);
        }
    }
    let mut sum = 0;
    let mut next = |count: u32| {
        sum += count;
        sum - count
    };
    most.push(0);
    most.iter().map(|it| next(*it)).collect()
}
