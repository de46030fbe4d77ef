//! What a plan says: its ranks and their calls, in few bytes.

use crate::numbers::Numbers;
use crate::sets::Sets;

/// What a call does. A call of a reserved key or name is idle: no other call depends on it.
#[derive(Clone, Copy, Debug, PartialEq, Eq)]
#[repr(u8)]
pub enum Verb {
    Idle,
    Put,
    Commit,
    Fence,
    Get,
    GetNow,
    Publish,
    Lookup,
    LookupWait,
    Unpublish,
    UnpublishAll,
}

const VERBS: [Verb; 11] = [
    Verb::Idle,
    Verb::Put,
    Verb::Commit,
    Verb::Fence,
    Verb::Get,
    Verb::GetNow,
    Verb::Publish,
    Verb::Lookup,
    Verb::LookupWait,
    Verb::Unpublish,
    Verb::UnpublishAll,
];

impl Verb {
    /// Whether it changes what is published.
    pub fn is_change(self) -> bool {
        matches!(self, Verb::Publish | Verb::Unpublish | Verb::UnpublishAll)
    }
}

/// Who sees a put: bits of the owner's node, and of other nodes.
pub const NEAR: u32 = 1;
pub const FAR: u32 = 2;
/// A fence that collects.
pub const COLLECTS: u32 = 1;

/// A call: its verb in four bits, two bits that depend on it (the scope of a put, whether a fence
/// collects), and in 26 bits the owner's rank of a get, or which fence of its rank over its set a
/// fence is.
#[derive(Clone, Copy)]
pub struct Call {
    head: u32,
    /// The key or the name, or the set of a fence, by its number.
    pub about: u32,
}

impl Call {
    pub fn new(verb: Verb, bits: u32, more: u32, about: u32) -> Call {
        Call {
            head: verb as u32 | (bits << 4) | (more << 6),
            about,
        }
    }

    pub fn verb(self) -> Verb {
        VERBS[(self.head & 15) as usize]
    }

    pub fn bits(self) -> u32 {
        (self.head >> 4) & 3
    }

    pub fn more(self) -> u32 {
        self.head >> 6
    }

    pub fn set_more(&mut self, more: u32) {
        self.head = (self.head & 63) | (more << 6);
    }
}

/// A job: the number of its name, and its first rank, if it has one.
#[derive(Clone, Copy)]
pub struct Job {
    pub name: u32,
    pub first: u32,
}

/// The ranks and calls of a plan, which has no fault. Ranks and the calls of a rank count from 0.
pub struct Script {
    /// Whether nodes keep what gets bring.
    pub keeps: bool,
    /// All calls, rank by rank.
    pub calls: Vec<Call>,
    /// The first call of each rank, and behind all ranks the number of calls.
    pub starts: Vec<u32>,
    /// Some of the calls, by their places among all.
    pub places: Places,
    /// The node of each rank.
    pub nodes: Vec<u32>,
    /// In the order of the file.
    pub jobs: Vec<Job>,
    pub names: Numbers<u8>,
    pub keys: Numbers<u8>,
    /// The sets of all fences.
    pub sets: Sets,
}

/// The places of some calls among all.
#[derive(Default)]
pub struct Places {
    /// Puts and commits.
    pub stores: Vec<u32>,
    pub fences: Vec<u32>,
    /// Calls on names that aren't reserved.
    pub names: Vec<u32>,
    /// How many calls before those of each rank, and before the end, may learn what other ranks
    /// have done.
    pub learning: Vec<u32>,
    /// Whether there is a `get-now`.
    pub has_questions: bool,
}

impl Places {
    /// Notes the place of a call. `learns` counts those that may learn of others.
    pub fn note(&mut self, place: u32, call: Call, learns: &mut u32) {
        match call.verb() {
            Verb::Put | Verb::Commit => self.stores.push(place),
            Verb::Fence => self.fences.push(place),
            Verb::GetNow => self.has_questions = true,
            Verb::Idle | Verb::Get => {}
            _ => self.names.push(place),
        }
        *learns += u32::from(matches!(
            call.verb(),
            Verb::Get | Verb::Fence | Verb::LookupWait
        ));
    }
}

/// Each rank with those of some places that are of its calls. `starts` has the first call of each
/// rank, and the number of all.
pub fn by_rank<'a>(starts: &'a [u32], places: &'a [u32]) -> impl Iterator<Item = (u32, &'a [u32])> {
    let mut rest = places;
    (0..).zip(starts.iter().skip(1)).map(move |(rank, end)| {
        let (its, others) = rest.split_at(rest.iter().take_while(|it| *it < end).count());
        rest = others;
        (rank, its)
    })
}

impl Script {
    pub fn ranks(&self) -> u32 {
        self.nodes.len() as u32
    }

    /// The calls of a rank.
    pub fn calls_of(&self, rank: u32) -> &[Call] {
        let at = rank as usize;
        &self.calls[self.starts[at] as usize..self.starts[at + 1] as usize]
    }

    /// A call of a rank.
    pub fn call(&self, rank: u32, number: u32) -> Call {
        self.calls[(self.starts[rank as usize] + number) as usize]
    }

    /// The rank of a call that is given by its place among all, which is no rank before this one.
    /// The nearer it is, the sooner it is found.
    pub fn rank_from(&self, rank: u32, place: u32) -> u32 {
        let ends = &self.starts[rank as usize + 1..];
        let mut count = 1;
        while ends.get(count - 1).is_some_and(|it| *it <= place) {
            count *= 2;
        }
        let ends = &ends[..count.min(ends.len())];
        rank + ends.partition_point(|it| *it <= place) as u32
    }
}
