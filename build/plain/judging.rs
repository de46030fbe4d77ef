//! The second pass: the ranks and jobs that calls name, by all that the file declares.

use crate::faults::{Fault, Wrong};
use crate::numbers::Numbers;
use crate::script::{by_rank, Job, Script};
use crate::sets::{pair, parts_of, Spelt};
use crate::words::{rank_number, EVERY};

/// More ranks than a plan can have.
const NO_RANK: u32 = 1 << 20;
/// The set of a fence that names what isn't declared.
const UNKNOWN: u32 = u32::MAX;

/// A job that was named: whether it is declared, and the gets that ask for more than it had.
#[derive(Default)]
struct Named {
    is_declared: bool,
    first: u32,
    count: u32,
    /// Numbers that a get asks for although there weren't so many ranks yet, each greater than all
    /// before, with its line.
    early: Vec<(u32, u32)>,
}

/// A get of a rank of a job that is declared later: its place among all calls, the job and the
/// rank's number there.
struct Later {
    call: u32,
    job: u32,
    number: u32,
}

/// The jobs of a file.
pub struct Jobs {
    pub names: Numbers<u8>,
    /// The job that was named last, and its name with a colon: mostly it is named again.
    pub last: u32,
    last_name: Vec<u8>,
    named: Vec<Named>,
    /// Those that are declared, in the order of the file.
    pub declared: Vec<u32>,
    later: Vec<Later>,
}

impl Jobs {
    pub fn new() -> Jobs {
        Jobs {
            names: Numbers::new(),
            last: 0,
            last_name: Vec::new(),
            named: Vec::new(),
            declared: Vec::new(),
            later: Vec::new(),
        }
    }

    /// The number of a rank, if a word spells one of the job that was named last.
    pub fn number_behind_last(&self, word: &[u8]) -> Option<u32> {
        match word.strip_prefix(&self.last_name[..]) {
            Some(digits) if !self.last_name.is_empty() => rank_number(digits),
            _ => None,
        }
    }

    /// The number of a job's name.
    pub fn number_of(&mut self, name: &[u8]) -> u32 {
        let number = self.names.number_of(name);
        if self.names.len() > self.named.len() {
            self.named.push(Named::default());
        }
        if number != self.last || self.last_name.is_empty() {
            self.last = number;
            self.last_name = [name, b":"].concat();
        }
        number
    }

    pub fn is_any(&self) -> bool {
        !self.declared.is_empty()
    }

    pub fn is_declared(&self, job: u32) -> bool {
        self.named[job as usize].is_declared
    }

    /// Declares a job, whose first rank has this number.
    pub fn declare(&mut self, job: u32, first: u32) {
        let named = &mut self.named[job as usize];
        (named.is_declared, named.first) = (true, first);
        self.declared.push(job);
    }

    /// The job that was declared last.
    pub fn current(&self) -> u32 {
        self.declared[self.declared.len() - 1]
    }

    /// Adds a rank to that job.
    pub fn add_rank(&mut self) {
        let job = self.current();
        self.named[job as usize].count += 1;
    }

    /// Whether that job has a rank.
    pub fn has_rank(&self) -> bool {
        self.declared
            .last()
            .is_some_and(|it| self.named[*it as usize].count > 0)
    }

    /// Notes that a get in a line asks for a rank of a job. Answers the rank, as far as it can be
    /// known.
    pub fn ask(&mut self, job: u32, number: u32, line: u32, call: u32) -> u32 {
        let named = &mut self.named[job as usize];
        if number >= named.count && named.early.last().is_none_or(|it| it.0 < number) {
            if named.early.len() == named.early.capacity() {
                let count = named.count;
                named.early.retain(|it| it.0 >= count);
            }
            named.early.push((number, line));
        }
        if !named.is_declared {
            self.later.push(Later { call, job, number });
        }
        named.first + number.min(NO_RANK)
    }

    /// The declared jobs, in the order of the file.
    pub fn in_order(&self) -> Vec<Job> {
        let job = |name: &u32| Job {
            name: *name,
            first: self.named[*name as usize].first,
        };
        self.declared.iter().map(job).collect()
    }

    /// The first line of a get of a rank that isn't declared.
    fn first_unknown(&self) -> Option<u32> {
        let first = |it: &Named| {
            let most = if it.is_declared { it.count } else { 0 };
            it.early
                .iter()
                .find(|(number, _)| *number >= most)
                .map(|(_, line)| *line)
        };
        self.named.iter().filter_map(first).min()
    }

    /// The ranks of an item of a set, if they are declared: the first and the end.
    fn span(&self, item: u64) -> Option<u64> {
        let (job, number) = parts_of(item);
        let job = &self.named[job as usize];
        match number {
            _ if !job.is_declared => None,
            EVERY => Some(pair(job.first, job.first + job.count)),
            _ if number >= job.count => None,
            _ => Some(pair(job.first + number, job.first + number + 1)),
        }
    }
}

/// Finds what each call names, and judges it. `lines` has the lines of the calls.
pub fn judge_names(
    script: &mut Script,
    jobs: &Jobs,
    spelt: &Spelt,
    lines: &[(u32, u32)],
) -> Result<(), Fault> {
    for it in &jobs.later {
        let owner = jobs.named[it.job as usize].first + it.number.min(NO_RANK);
        script.calls[it.call as usize].set_more(owner);
    }
    let unknown = jobs.first_unknown().map(|line| (line, Wrong::UnknownName));
    let sets = numbers_of_sets(script, jobs, spelt);
    let fence = judge_fences(script, &sets).map(|(call, it)| (line_of(lines, call), it));
    match unknown
        .into_iter()
        .chain(fence)
        .min_by_key(|(line, _)| *line)
    {
        Some((line, wrong)) => Err(wrong.at(line)),
        None => Ok(()),
    }
}

/// The line of a call.
fn line_of(lines: &[(u32, u32)], call: u32) -> u32 {
    let (place, line) = lines[lines.partition_point(|it| it.0 <= call) - 1];
    line + (call - place)
}

/// The number of each set that is spelt, or UNKNOWN.
fn numbers_of_sets(script: &mut Script, jobs: &Jobs, spelt: &Spelt) -> Vec<u32> {
    let mut spans = Vec::new();
    let mut number = |set: u32| {
        spans.clear();
        for item in spelt.lists.list(set) {
            match jobs.span(*item) {
                Some(span) => spans.push(span),
                None => return UNKNOWN,
            }
        }
        script.sets.number_of(&mut spans)
    };
    (0..spelt.lists.len() as u32).map(&mut number).collect()
}

/// Gives each fence the number of its set, up to the first whose set names what isn't declared, or
/// not its caller: that call and its fault.
fn judge_fences(script: &mut Script, sets: &[u32]) -> Option<(u32, Wrong)> {
    for (rank, places) in by_rank(&script.starts, &script.places.fences) {
        for place in places {
            let call = &mut script.calls[*place as usize];
            call.about = sets[call.about as usize];
            if call.about == UNKNOWN {
                return Some((*place, Wrong::UnknownName));
            }
            if !script.sets.has(call.about, rank) {
                return Some((*place, Wrong::NotMember));
            }
        }
    }
    None
}
