//! The races of a `get-now`.

use crate::bringing::{fetches_of, fetches_to, groups_of, Fetch, Meeting, Meetings};
use crate::fences::Fences;
use crate::order::Order;
use crate::puts::{Put, Puts, NONE};
use crate::script::{Script, Verb, FAR};

/// A race: its lower call in the upper 32 bits, and its higher one in the lower ones, each by its
/// place among all calls.
pub type Race = u64;

/// Finds all races of a `get-now`, in the order of their lines.
pub fn find_key_races(script: &Script, puts: &Puts, fences: &Fences, order: &Order) -> Vec<Race> {
    if !script.places.has_questions {
        return Vec::new();
    }
    let meetings = Meetings::of(script, fences, order);
    let fetches = fetches_of(script, puts, order);
    let races = Vec::new();
    let mut search = Search {
        script,
        puts,
        order,
        meetings,
        fetches,
        races,
    };
    for rank in 0..script.ranks() {
        for (number, call) in (0..).zip(script.calls_of(rank)) {
            if call.verb() == Verb::GetNow && order.is_live(rank, 2 * number) {
                search.take(rank, number);
            }
        }
    }
    search.races.sort_unstable();
    search.races
}

/// A `get-now`: its rank and its number there, what its rank knows of others, and the owner of the
/// key.
struct Question {
    rank: u32,
    number: u32,
    clock: u32,
    owner: u32,
}

/// The search for races.
struct Search<'a> {
    script: &'a Script,
    puts: &'a Puts,
    order: &'a Order,
    meetings: Meetings,
    fetches: Vec<Fetch>,
    races: Vec<Race>,
}

impl Search<'_> {
    /// Finds the races of a live `get-now`.
    fn take(&mut self, rank: u32, number: u32) {
        let call = self.script.call(rank, number);
        let owner = call.more();
        let Some(place) = self.puts.find(owner, call.about) else {
            return;
        };
        let put = *self.puts.get(place);
        if owner == rank || put.is_again || put.commit == NONE {
            return;
        }
        let clock = self.order.clock(rank, 2 * number);
        let asked = Question {
            rank,
            number,
            clock,
            owner,
        };
        let node = self.script.nodes[rank as usize];
        if self.script.nodes[owner as usize] == node {
            self.ask_near(&asked, &put);
        } else if put.scope & FAR > 0 {
            self.ask_far(&asked, &put, place, node);
        }
    }

    /// A question on the owner's node.
    fn ask_near(&mut self, asked: &Question, put: &Put) {
        let step = 2 * put.commit;
        let is_known = self.order.known(asked.clock, asked.owner) > step;
        let is_live = self.order.is_live(asked.owner, step);
        if !is_known && is_live && !self.is_before(asked, asked.owner, step) {
            self.add(asked, asked.owner, put.commit);
        }
    }

    /// A question on another node.
    fn ask_far(&mut self, asked: &Question, put: &Put, place: u32, node: u32) {
        let known = self.order.known(asked.clock, asked.owner);
        let meetings = self.meetings.of_rank(asked.owner);
        if is_brought(&self.meetings, meetings, put.commit, known, node) {
            return;
        }
        let fetches = fetches_to(&self.fetches, place, node);
        if is_fetched(self.order, fetches, asked) {
            return;
        }
        let mut found = Vec::new();
        for group in groups_of(meetings) {
            if self.meetings.reaches(group[0].set, node) {
                let late = &group[group.partition_point(|it| it.call <= put.commit)..];
                let open = |it: &&Meeting| !self.is_before(asked, asked.owner, 2 * it.call + 1);
                found.extend(
                    late.iter()
                        .take_while(open)
                        .map(|it| self.first_call(asked, it)),
                );
            }
        }
        let open = |it: &&Fetch| !self.is_before(asked, it.rank, 2 * it.call);
        found.extend(fetches.iter().filter(open).map(|it| (it.rank, it.call)));
        found
            .iter()
            .for_each(|(rank, call)| self.add(asked, *rank, *call));
    }

    /// The call of the first member, in rank order, of a fence of the owner.
    fn first_call(&self, asked: &Question, it: &Meeting) -> (u32, u32) {
        let turn = self.script.call(asked.owner, it.call).more();
        let first = self.script.sets.ranks(it.set).next().unwrap_or(asked.owner);
        let its = self.meetings.of_rank(first);
        let key = |it: &Meeting| (it.set, self.script.call(first, it.call).more());
        let at = its.partition_point(|other| key(other) < (it.set, turn));
        (first, its[at].call)
    }

    /// Whether a question is before a live step.
    fn is_before(&self, asked: &Question, rank: u32, step: u32) -> bool {
        if rank == asked.rank {
            return 2 * asked.number < step;
        }
        self.order.known(self.order.clock(rank, step), asked.rank) > 2 * asked.number
    }

    /// Adds a race of a question and a call.
    fn add(&mut self, asked: &Question, rank: u32, call: u32) {
        let starts = &self.script.starts;
        let one = starts[asked.rank as usize] + asked.number;
        let other = starts[rank as usize] + call;
        self.races
            .push(u64::from(one.min(other)) << 32 | u64::from(one.max(other)));
    }
}

/// Whether one of the owner's fences that a rank has left brings what a commit hands over to its
/// node. The rank knows so many steps of the owner.
fn is_brought(all: &Meetings, its: &[Meeting], commit: u32, known: u32, node: u32) -> bool {
    if known <= 2 * commit {
        return false;
    }
    groups_of(its).any(|group| {
        let next = group.get(group.partition_point(|it| it.call <= commit));
        next.is_some_and(|it| 2 * it.call < known) && all.reaches(group[0].set, node)
    })
}

/// Whether a `get` that brings what is asked for is before a question. Those of its own rank are
/// looked at first.
fn is_fetched(order: &Order, fetches: &[Fetch], asked: &Question) -> bool {
    let own = fetches.get(fetches.partition_point(|it| it.rank < asked.rank));
    own.is_some_and(|it| it.rank == asked.rank && it.call < asked.number)
        || fetches
            .iter()
            .any(|it| it.rank != asked.rank && order.known(asked.clock, it.rank) > 2 * it.call)
}
