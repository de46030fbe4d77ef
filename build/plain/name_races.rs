//! The races of two calls on a name.

use crate::names::{NameCall, Names};
use crate::order::Order;
use crate::script::{Script, Verb};

/// The calls of a rank on a name, by their numbers.
#[derive(Clone, Copy)]
struct Group {
    name: u32,
    rank: u32,
    /// Where they begin among all, and where they end; and the same of those that change what is
    /// published.
    all: (u32, u32),
    changes: (u32, u32),
    /// Whether the rank publishes the name, so that its `unpublish *` are calls on it too.
    is_publisher: bool,
}

/// Groups of calls, by the names and then by the ranks.
#[derive(Default)]
struct Groups {
    groups: Vec<Group>,
    /// Where the groups of each name begin, and behind them all the end.
    starts: Vec<u32>,
}

impl Groups {
    /// Adds the next group.
    fn push(&mut self, group: Group) {
        self.start_names(group.name as usize + 1);
        self.groups.push(group);
    }

    /// Notes where the groups of so many names begin, if that isn't noted.
    fn start_names(&mut self, count: usize) {
        let next = self.groups.len() as u32;
        self.starts.resize(count.max(self.starts.len()), next);
    }

    /// The calls of higher ranks on a name.
    fn above(&self, rank: u32, name: u32) -> &[Group] {
        let (start, end) = (self.starts[name as usize], self.starts[name as usize + 1]);
        let groups = &self.groups[start as usize..end as usize];
        &groups[groups.partition_point(|it| it.rank <= rank)..]
    }
}

/// A call of a higher rank with which a call races, by its place among all calls, and the name.
#[derive(Clone, Copy)]
pub struct Other {
    pub place: u32,
    pub name: u32,
}

/// The calls on all names, for the search for races.
pub struct NameRaces<'a> {
    script: &'a Script,
    order: &'a Order,
    names: &'a Names,
    /// Those of all ranks, and those of ranks that may change what is published.
    all: Groups,
    changing: Groups,
    numbers: Vec<u32>,
    changes: Vec<u32>,
    /// The rank of the last `unpublish *`, and the names that it may take from higher ranks.
    publisher: Option<u32>,
    published: Vec<u32>,
    /// The call of the file that is looked at next, and the next `unpublish *`.
    next: usize,
    next_star: usize,
}

impl<'a> NameRaces<'a> {
    pub fn new(script: &'a Script, order: &'a Order, names: &'a Names) -> NameRaces<'a> {
        let mut found = NameRaces {
            script,
            order,
            names,
            all: Groups::default(),
            changing: Groups::default(),
            numbers: Vec::new(),
            changes: Vec::new(),
            publisher: None,
            published: Vec::new(),
            next: 0,
            next_star: 0,
        };
        if !names.calls.is_empty() {
            found.find_groups();
        }
        found
    }

    /// Finds the calls of each rank on each name.
    fn find_groups(&mut self) {
        let mut calls = self.names.calls.clone();
        calls.sort_by_key(|it| it.name);
        for it in calls.chunk_by(|one, other| (one.name, one.rank) == (other.name, other.rank)) {
            let group = self.group_of(it);
            self.all.push(group);
            if group.changes.0 < group.changes.1 {
                self.changing.push(group);
            }
        }
        self.all.start_names(self.script.keys.len() + 1);
        self.changing.start_names(self.script.keys.len() + 1);
    }

    /// Notes the calls of a rank on a name, of which there is one at least.
    fn group_of(&mut self, calls: &[NameCall]) -> Group {
        let (name, rank) = (calls[0].name, calls[0].rank);
        let (all, changes) = (self.numbers.len() as u32, self.changes.len() as u32);
        let verb = |it: &NameCall| self.script.call(rank, it.number).verb();
        let changing = calls.iter().filter(|it| verb(it).is_change());
        self.numbers.extend(calls.iter().map(|it| it.number));
        self.changes.extend(changing.map(|it| it.number));
        Group {
            name,
            rank,
            all: (all, self.numbers.len() as u32),
            changes: (changes, self.changes.len() as u32),
            is_publisher: calls.iter().any(|it| verb(it) == Verb::Publish),
        }
    }

    /// The next call on a name, by its place among all calls, and those of higher ranks with which
    /// it races, in the order of their lines.
    pub fn next(&mut self, others: &mut Vec<Other>) -> Option<u32> {
        others.clear();
        let call = self
            .names
            .calls
            .get(self.next)
            .map(|it| (it.rank, it.number));
        let star = self.names.stars.get(self.next_star).copied();
        let (rank, number) = match (call, star) {
            (Some(call), Some(star)) => call.min(star),
            _ => call.or(star)?,
        };
        let place = self.script.starts[rank as usize] + number;
        if call == Some((rank, number)) {
            let name = self.names.calls[self.next].name;
            self.next += 1;
            self.add_others(rank, number, name, others);
        } else {
            self.next_star += 1;
            self.add_of_star(rank, number, others);
        }
        Some(place)
    }

    /// Adds what an `unpublish *` races with.
    fn add_of_star(&mut self, rank: u32, number: u32, others: &mut Vec<Other>) {
        if self.publisher != Some(rank) {
            self.publisher = Some(rank);
            self.published = self.published_by(rank);
        }
        self.published
            .iter()
            .for_each(|it| self.add_others(rank, number, *it, others));
        sort_by_place(others);
    }

    /// The names that a rank publishes and a higher one has calls on, in the order of their bytes.
    fn published_by(&self, rank: u32) -> Vec<u32> {
        let calls = &self.names.calls;
        let start = calls.partition_point(|it| it.rank < rank);
        let its = calls[start..].iter().take_while(|it| it.rank == rank);
        let is_publish = |it: u32| self.script.call(rank, it).verb() == Verb::Publish;
        let mut names: Vec<u32> = its
            .filter(|it| is_publish(it.number))
            .map(|it| it.name)
            .collect();
        names.retain(|it| !self.all.above(rank, *it).is_empty());
        names.sort_unstable_by_key(|it| self.script.keys.list(*it));
        names.dedup();
        names
    }

    /// Adds what a call races with on a name.
    fn add_others(&self, rank: u32, number: u32, name: u32, others: &mut Vec<Other>) {
        if !self.order.is_live(rank, 2 * number) {
            return;
        }
        let is_change = self.script.call(rank, number).verb().is_change();
        let clock = self.order.clock(rank, 2 * number);
        let groups = if is_change { &self.all } else { &self.changing };
        for group in groups.above(rank, name) {
            let first = self.order.known(clock, group.rank).div_ceil(2);
            let end = self
                .order
                .first_after(group.rank, rank, 2 * number)
                .div_ceil(2);
            if first < end {
                self.add_of_group(group, is_change, first..end, others);
            }
        }
    }

    /// Adds the calls of a rank on a name whose numbers are in a range.
    fn add_of_group(
        &self,
        group: &Group,
        is_change: bool,
        range: std::ops::Range<u32>,
        others: &mut Vec<Other>,
    ) {
        let (list, (start, end)) = match is_change {
            true => (&self.numbers, group.all),
            false => (&self.changes, group.changes),
        };
        let (place, before) = (self.script.starts[group.rank as usize], others.len());
        let other = |number: u32| Other {
            place: place + number,
            name: group.name,
        };
        let list = &list[start as usize..end as usize];
        let late = &list[list.partition_point(|it| *it < range.start)..];
        others.extend(
            late.iter()
                .take_while(|it| **it < range.end)
                .map(|it| other(*it)),
        );
        if group.is_publisher {
            let stars = self.names.stars_of(group.rank);
            let late = &stars[stars.partition_point(|it| it.1 < range.start)..];
            let its = late.iter().take_while(|it| it.1 < range.end);
            others.extend(its.map(|it| other(it.1)));
            others[before..].sort_unstable_by_key(|it| it.place);
        }
    }
}

/// Sorts calls by their places; those of one place stay in their order.
fn sort_by_place(others: &mut [Other]) {
    let Some(least) = others.iter().map(|it| it.place).min() else {
        return;
    };
    let most = others.iter().map(|it| it.place).max().unwrap_or(least);
    if (most - least) as usize > 4 * others.len() {
        return others.sort_by_key(|it| it.place);
    }
    let mut ends = ends_of(others, least, most);
    let unsorted = others.to_vec();
    for it in unsorted.iter().rev() {
        let end = &mut ends[(it.place - least) as usize];
        *end -= 1;
        others[*end as usize] = *it;
    }
}

/// How many calls have each place between two, or one before it.
fn ends_of(others: &[Other], least: u32, most: u32) -> Vec<u32> {
    let mut ends = vec![0; (most - least) as usize + 1];
    let count = |it: &Other| ends[(it.place - least) as usize] += 1;
    others.iter().for_each(count);
    let mut sum = 0;
    for it in &mut ends {
        sum += *it;
        *it = sum;
    }
    ends
}
