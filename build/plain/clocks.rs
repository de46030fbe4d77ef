//! Clocks: how many steps of each rank are known at a point of a run. A clock is a tree with
//! sixteen branches at each node, whose parts clocks share.

const BITS: u32 = 4;
const BRANCHES: usize = 1 << BITS;
/// The clock that knows of no step. Each part of it is itself.
pub const NOTHING: u32 = 0;

type Node = [u32; BRANCHES];

/// The nodes of all clocks. A node of the lowest level has the steps of sixteen ranks, another the
/// numbers of sixteen nodes below it.
pub struct Clocks {
    nodes: Vec<Node>,
    /// How many nodes and holders each node has above it.
    holders: Vec<u32>,
    free: Vec<u32>,
    /// The level of the roots.
    top: u32,
}

impl Clocks {
    /// Clocks of so many ranks.
    pub fn new(ranks: u32) -> Clocks {
        let mut top = 0;
        while ranks > 1 << (BITS * (top + 1)) {
            top += 1;
        }
        Clocks {
            nodes: vec![[0; BRANCHES]],
            holders: vec![1],
            free: Vec::new(),
            top,
        }
    }

    /// How many steps of a rank a clock knows.
    pub fn steps(&self, clock: u32, rank: u32) -> u32 {
        self.leaf(clock, rank)[rank as usize % BRANCHES]
    }

    /// What a clock knows of the sixteen ranks among which one is.
    pub fn leaf(&self, clock: u32, rank: u32) -> &Node {
        let mut node = clock;
        for level in (1..=self.top).rev() {
            node = self.nodes[node as usize][branch(rank, level)];
        }
        &self.nodes[node as usize]
    }

    /// One more holder of a clock.
    pub fn hold(&mut self, clock: u32) -> u32 {
        self.hold_often(clock, 1);
        clock
    }

    /// So many more holders of a clock.
    pub fn hold_often(&mut self, clock: u32, more: u32) {
        if clock != NOTHING {
            self.holders[clock as usize] += more;
        }
    }

    /// One holder less.
    pub fn drop(&mut self, clock: u32) {
        self.drop_at(clock, self.top);
    }

    fn drop_at(&mut self, node: u32, level: u32) {
        if node == NOTHING {
            return;
        }
        self.holders[node as usize] -= 1;
        if self.holders[node as usize] > 0 {
            return;
        }
        if level > 0 {
            let below = self.nodes[node as usize];
            below.iter().for_each(|it| self.drop_at(*it, level - 1));
        }
        self.free.push(node);
    }

    /// A clock that knows what either of two knows. The first has a holder less, and the answer one
    /// more.
    pub fn join(&mut self, one: u32, other: u32) -> u32 {
        self.join_in_place(one, other, self.top)
    }

    /// The same of two nodes. The first is changed where nothing else has it.
    fn join_in_place(&mut self, one: u32, other: u32, level: u32) -> u32 {
        if one == other || other == NOTHING {
            return one;
        }
        if one == NOTHING || self.holders[one as usize] > 1 {
            let joined = self.join_at(one, other, level);
            self.drop_at(one, level);
            return joined;
        }
        let (first, second) = (self.nodes[one as usize], self.nodes[other as usize]);
        self.nodes[one as usize] = if level == 0 {
            higher_of(&first, &second)
        } else {
            std::array::from_fn(|at| self.join_in_place(first[at], second[at], level - 1))
        };
        one
    }

    /// A node that knows what either of two knows. It has a holder more.
    fn join_at(&mut self, one: u32, other: u32, level: u32) -> u32 {
        if one == other || other == NOTHING {
            return self.hold(one);
        }
        if one == NOTHING {
            return self.hold(other);
        }
        let (first, second) = (self.nodes[one as usize], self.nodes[other as usize]);
        let joined = if level == 0 {
            higher_of(&first, &second)
        } else {
            std::array::from_fn(|at| self.join_at(first[at], second[at], level - 1))
        };
        let is_first = is_same(&joined, &first);
        if !is_first && !is_same(&joined, &second) {
            return self.add(joined);
        }
        if level > 0 {
            joined.iter().for_each(|it| self.drop_at(*it, level - 1));
        }
        self.hold(if is_first { one } else { other })
    }

    /// A clock that knows so many steps of a rank besides. The one that is handed in has a holder
    /// less, and the answer one more.
    pub fn raise(&mut self, clock: u32, rank: u32, steps: u32) -> u32 {
        self.change(clock, rank, self.top, |leaf| {
            let there = &mut leaf[rank as usize % BRANCHES];
            *there = steps.max(*there);
        })
    }

    /// The same of the sixteen ranks among which one is.
    pub fn raise_leaf(&mut self, clock: u32, rank: u32, steps: &Node) -> u32 {
        self.change(clock, rank, self.top, |leaf| {
            leaf.iter_mut()
                .zip(steps)
                .for_each(|(there, it)| *there = *it.max(there));
        })
    }

    /// Changes the leaf of a rank in the part of a clock below a node.
    fn change(&mut self, node: u32, rank: u32, level: u32, by: impl FnOnce(&mut Node)) -> u32 {
        let own = self.own(node, level);
        if level == 0 {
            by(&mut self.nodes[own as usize]);
        } else {
            let at = branch(rank, level);
            let below = self.change(self.nodes[own as usize][at], rank, level - 1, by);
            self.nodes[own as usize][at] = below;
        }
        own
    }

    /// A node with one holder that has what a node has, which has a holder less.
    fn own(&mut self, node: u32, level: u32) -> u32 {
        if node != NOTHING && self.holders[node as usize] == 1 {
            return node;
        }
        let copy = self.nodes[node as usize];
        if level > 0 {
            copy.iter().for_each(|it| self.hold_often(*it, 1));
        }
        if node != NOTHING {
            self.holders[node as usize] -= 1;
        }
        self.add(copy)
    }

    /// A new node with one holder.
    fn add(&mut self, node: Node) -> u32 {
        if let Some(it) = self.free.pop() {
            (self.nodes[it as usize], self.holders[it as usize]) = (node, 1);
            return it;
        }
        self.nodes.push(node);
        self.holders.push(1);
        self.nodes.len() as u32 - 1
    }
}

/// The branch of a rank in the nodes of a level.
fn branch(rank: u32, level: u32) -> usize {
    (rank >> (BITS * level)) as usize % BRANCHES
}

/// The higher number at each place of two nodes.
fn higher_of(first: &Node, second: &Node) -> Node {
    std::array::from_fn(|at| first[at].max(second[at]))
}

/// Whether two nodes are the same. (All numbers are looked at, which takes a few steps.)
fn is_same(first: &Node, second: &Node) -> bool {
    let differences = first.iter().zip(second).map(|(one, other)| one ^ other);
    differences.fold(0, |sum, it| sum | it) == 0
}
