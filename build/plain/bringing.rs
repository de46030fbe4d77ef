//! What brings keys to other nodes: fences that collect, and with `keep` gets.

use crate::fences::Fences;
use crate::order::Order;
use crate::puts::Puts;
use crate::script::{by_rank, Script, Verb, FAR};

/// A call of a fence that collects and that all members leave.
#[derive(Clone, Copy)]
pub struct Meeting {
    pub set: u32,
    pub call: u32,
}

/// The fences of each rank that bring what it has committed, and the nodes of their members.
pub struct Meetings {
    /// Where those of each rank begin, and behind them all the end.
    starts: Vec<u32>,
    /// Rank by rank, by their sets and then as they come.
    meetings: Vec<Meeting>,
    /// Where the nodes of each set begin, and behind them all the end.
    node_starts: Vec<u32>,
    /// The nodes of the members of each set that has such a fence: spans of their numbers.
    nodes: Vec<(u32, u32)>,
}

impl Meetings {
    pub fn of(script: &Script, fences: &Fences, order: &Order) -> Meetings {
        let mut found = Meetings {
            starts: Vec::new(),
            meetings: Vec::new(),
            node_starts: Vec::new(),
            nodes: Vec::new(),
        };
        let mut is_used = vec![false; script.sets.len()];
        for (rank, places) in by_rank(&script.starts, &script.places.fences) {
            let start = found.meetings.len();
            found.starts.push(start as u32);
            let first = script.starts[rank as usize];
            let brings = |place: &&u32| {
                let call = script.calls[**place as usize];
                let is_left = order.is_live(rank, 2 * (**place - first) + 1);
                is_left && fences.collects(call.about, call.more())
            };
            let its = places.iter().filter(brings).map(|place| Meeting {
                set: script.calls[*place as usize].about,
                call: place - first,
            });
            found.meetings.extend(its);
            let its = &mut found.meetings[start..];
            its.iter().for_each(|it| is_used[it.set as usize] = true);
            its.sort_by_key(|it| it.set);
        }
        found.starts.push(found.meetings.len() as u32);
        found.find_nodes(script, &is_used);
        found
    }

    /// Finds the nodes of the sets that are used.
    fn find_nodes(&mut self, script: &Script, is_used: &[bool]) {
        let mut nodes = Vec::new();
        for (set, is_used) in (0..).zip(is_used) {
            self.node_starts.push(self.nodes.len() as u32);
            if !is_used {
                continue;
            }
            nodes.clear();
            nodes.extend(script.sets.ranks(set).map(|it| script.nodes[it as usize]));
            nodes.sort_unstable();
            let start = self.nodes.len();
            for it in &nodes {
                match self.nodes[start..].last_mut() {
                    Some(span) if span.1 >= *it => span.1 = it + 1,
                    _ => self.nodes.push((*it, it + 1)),
                }
            }
        }
        self.node_starts.push(self.nodes.len() as u32);
    }

    /// Whether a set has a rank on a node.
    pub fn reaches(&self, set: u32, node: u32) -> bool {
        let start = self.node_starts[set as usize] as usize;
        let spans = &self.nodes[start..self.node_starts[set as usize + 1] as usize];
        let at = spans.partition_point(|it| it.0 <= node);
        at > 0 && node < spans[at - 1].1
    }

    /// The meetings of a rank, by their sets and then as they come.
    pub fn of_rank(&self, rank: u32) -> &[Meeting] {
        let (start, end) = (self.starts[rank as usize], self.starts[rank as usize + 1]);
        &self.meetings[start as usize..end as usize]
    }
}

/// The meetings of a rank, in groups of one set.
pub fn groups_of(meetings: &[Meeting]) -> impl Iterator<Item = &[Meeting]> {
    let mut rest = meetings;
    std::iter::from_fn(move || {
        let (first, last) = (rest.first()?, rest.last()?);
        let is_one = first.set == last.set;
        let count = if is_one {
            rest.len()
        } else {
            rest.partition_point(|it| it.set == first.set)
        };
        let (group, others) = rest.split_at(count);
        rest = others;
        Some(group)
    })
}

/// A live `get` that brings a key to a node.
#[derive(Clone, Copy, PartialEq, Eq, PartialOrd, Ord)]
pub struct Fetch {
    put: u32,
    node: u32,
    pub rank: u32,
    pub call: u32,
}

/// Finds all gets that bring keys, by the puts, the nodes, the ranks and then as they come. There
/// are none if the plan doesn't keep what gets bring.
pub fn fetches_of(script: &Script, puts: &Puts, order: &Order) -> Vec<Fetch> {
    let mut found = Vec::new();
    for rank in 0..if script.keeps { script.ranks() } else { 0 } {
        let node = script.nodes[rank as usize];
        for (call, it) in (0..).zip(script.calls_of(rank)) {
            let is_asked = it.verb() == Verb::Get && order.is_live(rank, 2 * call);
            if !is_asked || script.nodes[it.more() as usize] == node {
                continue;
            }
            if let Some(put) = puts.find(it.more(), it.about) {
                if puts.get(put).scope & FAR > 0 {
                    found.push(Fetch {
                        put,
                        node,
                        rank,
                        call,
                    });
                }
            }
        }
    }
    found.sort_unstable();
    found
}

/// The gets that bring what is put to a node, of all gets.
pub fn fetches_to(fetches: &[Fetch], put: u32, node: u32) -> &[Fetch] {
    let start = fetches.partition_point(|it| (it.put, it.node) < (put, node));
    let count = fetches[start..].partition_point(|it| (it.put, it.node) == (put, node));
    &fetches[start..start + count]
}
