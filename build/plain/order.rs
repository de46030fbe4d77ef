//! Which steps can happen, and what each rank knows of the others' steps: the plan is run once,
//! each rank as far as the others let it.
//!
//! Step 2n of a rank is its call n, or the arrival at it, and step 2n + 1 the leaving.

use std::cmp::Reverse;
use std::collections::{BinaryHeap, HashMap, VecDeque};

use crate::clocks::{Clocks, NOTHING};
use crate::fences::Fences;
use crate::names::Names;
use crate::puts::{Puts, NONE};
use crate::script::{Call, Script, Verb};

/// From a step of a rank on it knows what a clock says.
#[derive(Clone, Copy, Default)]
struct Point {
    step: u32,
    clock: u32,
}

/// The order of all steps.
pub struct Order {
    clocks: Clocks,
    /// How many steps of each rank can happen: all before the first that can't.
    live: Vec<u32>,
    /// Room for the points of each rank begins here, and behind them all ends here.
    firsts: Vec<u32>,
    /// How many points each rank has.
    counts: Vec<u32>,
    points: Vec<Point>,
}

impl Order {
    /// Whether a step can happen.
    pub fn is_live(&self, rank: u32, step: u32) -> bool {
        step < self.live[rank as usize]
    }

    /// How many steps of a rank can happen.
    pub fn live(&self, rank: u32) -> u32 {
        self.live[rank as usize]
    }

    /// The clock of a step.
    pub fn clock(&self, rank: u32, step: u32) -> u32 {
        let points = self.points(rank);
        match points.last() {
            Some(last) if last.step <= step => last.clock,
            _ => {
                let at = points.partition_point(|it| it.step <= step);
                if at == 0 {
                    NOTHING
                } else {
                    points[at - 1].clock
                }
            }
        }
    }

    /// How many steps of a rank are before what has a clock.
    pub fn known(&self, clock: u32, rank: u32) -> u32 {
        self.clocks.steps(clock, rank)
    }

    /// The first live step of a rank that another rank's step is before, or the end of the live
    /// ones. It may be a later one, if no question can be about those between.
    pub fn first_after(&self, rank: u32, other: u32, step: u32) -> u32 {
        let points = self.points(rank);
        let at = points.partition_point(|it| self.known(it.clock, other) <= step);
        points.get(at).map_or(self.live(rank), |it| it.step)
    }

    fn points(&self, rank: u32) -> &[Point] {
        let first = self.firsts[rank as usize] as usize;
        &self.points[first..first + self.counts[rank as usize] as usize]
    }
}

/// What a rank waits for.
enum Halt {
    /// For a step of a rank.
    Step(u32, u32),
    /// For others at a fence, at which it has arrived.
    Fence,
    /// For ever.
    End,
}

/// Finds the order of a plan.
pub fn order_of(script: &Script, puts: &Puts, fences: &Fences, names: &Names) -> Order {
    let mut run = Run::new(script, puts, fences, names);
    while let Some(rank) = run.ready.pop_front() {
        run.advance(rank);
    }
    run.order
}

/// The run of a plan.
struct Run<'a> {
    script: &'a Script,
    puts: &'a Puts,
    fences: &'a Fences,
    names: &'a Names,
    order: Order,
    /// Whether the clock of each rank's last point may be asked for, so has to stay.
    is_asked: Vec<bool>,
    /// Whether a `get-now` may ask what who leaves a fence knows.
    has_questions: bool,
    /// How many have arrived at each fence.
    arrived: Vec<u32>,
    /// The ranks that may go on, those first that wait longest.
    ready: VecDeque<u32>,
    /// Who waits for steps of a rank: the step and who waits, the earliest step first.
    waiting: HashMap<u32, BinaryHeap<Reverse<(u32, u32)>>>,
}

impl<'a> Run<'a> {
    fn new(script: &'a Script, puts: &'a Puts, fences: &'a Fences, names: &'a Names) -> Run<'a> {
        let ranks = script.ranks();
        let firsts = script.places.learning.clone();
        let points = vec![Point::default(); firsts[ranks as usize] as usize];
        let (live, counts) = (vec![0; ranks as usize], vec![0; ranks as usize]);
        Run {
            script,
            puts,
            fences,
            names,
            order: Order {
                clocks: Clocks::new(ranks),
                live,
                firsts,
                counts,
                points,
            },
            is_asked: vec![false; ranks as usize],
            has_questions: script.places.has_questions,
            arrived: vec![0; fences.len()],
            ready: (0..ranks).collect(),
            waiting: HashMap::new(),
        }
    }

    /// Takes steps of a rank as long as it can.
    fn advance(&mut self, rank: u32) {
        let calls = self.script.calls_of(rank);
        let (mut step, mut halt) = (self.order.live(rank), None);
        while let Some(call) = calls.get(step as usize / 2) {
            halt = self.take(rank, step, *call);
            if halt.is_some() {
                break;
            }
            step += 2;
        }
        let is_inside = matches!(halt, Some(Halt::Fence));
        self.order.live[rank as usize] = step + u32::from(is_inside);
        self.wake(rank);
        if let Some(Halt::Step(other, needed)) = halt {
            let heap = self.waiting.entry(other).or_default();
            heap.push(Reverse((needed, rank)));
        }
    }

    /// Takes a call of a rank, unless it can't happen yet.
    fn take(&mut self, rank: u32, step: u32, call: Call) -> Option<Halt> {
        match call.verb() {
            Verb::Idle | Verb::Put => return None,
            Verb::Get => return self.get(rank, step, call),
            Verb::Fence => return self.arrive(rank, step, call),
            Verb::LookupWait => return self.wait_for_name(rank, step, call.about),
            _ => self.is_asked[rank as usize] = true,
        }
        None
    }

    /// Makes those ready who wait for a step that a rank has taken.
    fn wake(&mut self, rank: u32) {
        if self.waiting.is_empty() {
            return;
        }
        let Some(heap) = self.waiting.get_mut(&rank) else {
            return;
        };
        while let Some(&Reverse((needed, other))) = heap.peek() {
            if needed >= self.order.live[rank as usize] {
                return;
            }
            self.ready.push_back(other);
            heap.pop();
        }
        self.waiting.remove(&rank);
    }

    /// Takes a `get` that can happen.
    fn get(&mut self, rank: u32, step: u32, call: Call) -> Option<Halt> {
        let (owner, found) = (call.more(), self.puts.find(call.more(), call.about));
        let Some(put) = found.map(|it| self.puts.get(it)) else {
            return Some(Halt::End);
        };
        if owner == rank {
            return (put.first >= step / 2).then_some(Halt::End);
        }
        if !put.is_again && put.commit == NONE {
            return Some(Halt::End);
        }
        if !put.is_again {
            if let Some(it) = self.learn(rank, step, owner, 2 * put.commit) {
                return Some(it);
            }
        }
        self.is_asked[rank as usize] |= self.script.keeps;
        None
    }

    /// Takes a `lookup-wait` that can happen.
    fn wait_for_name(&mut self, rank: u32, step: u32, name: u32) -> Option<Halt> {
        let halt = match self.names.only(name) {
            Some((owner, number)) if owner == rank => (2 * number >= step).then_some(Halt::End),
            Some((owner, number)) => self.learn(rank, step, owner, 2 * number),
            None => None,
        };
        self.is_asked[rank as usize] |= halt.is_none();
        halt
    }

    /// A step of a rank learns from a step of another rank, for which it may have to wait.
    fn learn(&mut self, rank: u32, step: u32, other: u32, from: u32) -> Option<Halt> {
        if !self.order.is_live(other, from) {
            return Some(Halt::Step(other, from));
        }
        let last = self.last_point(rank);
        if self.order.known(last.clock, other) > from {
            return None;
        }
        let its = self.order.clock(other, from);
        let clock = self.take_clock(rank);
        // (who knows of the last point of this rank knows all that is known there)
        let clock = if clock == NOTHING || self.order.known(its, rank) > last.step {
            self.order.clocks.drop(clock);
            self.order.clocks.hold(its)
        } else {
            self.order.clocks.join(clock, its)
        };
        let clock = self.order.clocks.raise(clock, other, from + 1);
        self.set_point(rank, Point { step, clock });
        None
    }

    /// The last point of a rank.
    fn last_point(&self, rank: u32) -> Point {
        self.order.points(rank).last().copied().unwrap_or_default()
    }

    /// The clock of a rank's last point, with a holder more if it has to stay there. Else that
    /// point is gone.
    fn take_clock(&mut self, rank: u32) -> u32 {
        let last = self.last_point(rank).clock;
        let count = &mut self.order.counts[rank as usize];
        if self.is_asked[rank as usize] || *count == 0 {
            self.order.clocks.hold(last)
        } else {
            *count -= 1;
            last
        }
    }

    /// Adds a point to a rank.
    fn set_point(&mut self, rank: u32, point: Point) {
        let at = self.order.firsts[rank as usize] + self.order.counts[rank as usize];
        self.order.points[at as usize] = point;
        self.order.counts[rank as usize] += 1;
        self.is_asked[rank as usize] = false;
    }

    /// A rank arrives at a fence. If it is the last, all members leave.
    fn arrive(&mut self, rank: u32, step: u32, call: Call) -> Option<Halt> {
        let (set, turn) = (call.about, call.more());
        let fence = self.fences.fence(set, turn);
        self.order.live[rank as usize] = step + 1;
        self.arrived[fence] += 1;
        if !self.fences.is_full(set, turn) || self.arrived[fence] < self.fences.size(set) {
            return Some(Halt::Fence);
        }
        self.leave(rank, set, self.fences.collects(set, turn));
        None
    }

    /// All members of a set leave a fence, at which they stand. One of them goes on by itself.
    fn leave(&mut self, going: u32, set: u32, collects: bool) {
        let clock = self.join_of(set);
        let script = self.script;
        for rank in script.sets.ranks(set) {
            let step = self.order.live(rank);
            let old = self.take_clock(rank);
            self.order.clocks.drop(old);
            self.order.clocks.hold(clock);
            self.set_point(rank, Point { step, clock });
            self.is_asked[rank as usize] = collects && self.has_questions;
            self.order.live[rank as usize] += 1;
        }
        self.order.clocks.drop(clock);
        self.ready
            .extend(script.sets.ranks(set).filter(|it| *it != going));
    }

    /// What all members of a set know together when they stand at a fence, with their arrivals.
    fn join_of(&mut self, set: u32) -> u32 {
        let (mut joined, mut before) = (NOTHING, NOTHING);
        for rank in self.script.sets.ranks(set) {
            let Point { step, clock } = self.last_point(rank);
            if clock != before && self.order.known(joined, rank) <= step {
                joined = self.order.clocks.join(joined, clock);
            }
            before = clock;
        }
        for (start, end) in self.script.sets.spans(set) {
            joined = self.with_arrivals(joined, start, end);
        }
        joined
    }

    /// A clock with the arrivals of a span of ranks besides. It is changed in place where nothing
    /// else has it.
    fn with_arrivals(&mut self, clock: u32, start: u32, end: u32) -> u32 {
        let (mut clock, mut rank) = (clock, start);
        while rank < end {
            let next = end.min(rank / 16 * 16 + 16);
            let mut steps = [0; 16];
            (rank..next).for_each(|it| steps[it as usize % 16] = self.order.live(it));
            clock = self.order.clocks.raise_leaf(clock, rank, &steps);
            rank = next;
        }
        clock
    }
}
