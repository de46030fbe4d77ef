//! The first pass over a plan: each line by itself and by those above it.

use crate::faults::{Fault, Wrong};
use crate::input::{feeds_in, Input};
use crate::judging::{judge_names, Jobs};
use crate::numbers::Numbers;
use crate::script::{Call, Places, Script, Verb, COLLECTS, FAR, NEAR};
use crate::sets::{Sets, Spelt};
use crate::words::{be_key, fit, is_reserved, name, packed, proc, Line, NAME_BYTES, VALUE_BYTES};

/// How many of each a plan may have.
struct Limits {
    nodes: usize,
    jobs: usize,
    ranks: usize,
    calls: usize,
}

const FIRST: Limits = Limits {
    nodes: 64,
    jobs: 16,
    ranks: 256,
    calls: 16_384,
};
const SECOND: Limits = Limits {
    ranks: 512,
    calls: 32_768,
    ..FIRST
};
const LARGE: Limits = Limits {
    nodes: 65_536,
    jobs: 256,
    ranks: 1_048_576,
    calls: 33_554_432,
};

const KEEP: u64 = packed(b"keep");
const NODE: u64 = packed(b"node");
const JOB: u64 = packed(b"job");
const RANK: u64 = packed(b"rank");
const PUT: u64 = packed(b"put");
const COMMIT: u64 = packed(b"commit");
const FENCE: u64 = packed(b"fence");
const GET: u64 = packed(b"get");
const GET_NOW: u64 = packed(b"get-now");
const PUBLISH: u64 = packed(b"publish");
const LOOKUP: u64 = packed(b"lookup");

/// The most bytes of a file.
pub fn most_bytes(is_large: bool) -> u64 {
    if is_large {
        1 << 30
    } else {
        1 << 22
    }
}

/// Reads a plan to its end, and judges it.
pub fn read(input: &mut Input, is_large: bool) -> Result<Script, Fault> {
    let mut reader = Reader::new(is_large);
    let mut judged = Ok(());
    while let Some(piece) = input.next_piece(reader.line)? {
        let before = reader.line;
        judged = judged.and_then(|()| reader.take(piece));
        if judged.is_err() {
            reader.line = before + feeds_in(piece);
        }
    }
    judged?;
    reader.finish()
}

/// What was read so far.
struct Reader {
    is_large: bool,
    limits: Limits,
    /// The version, once the header was read.
    version: Option<u8>,
    /// How many lines were read.
    line: u32,
    keeps: bool,
    node_names: Numbers<u8>,
    jobs: Jobs,
    nodes: Vec<u32>,
    starts: Vec<u32>,
    calls: Vec<Call>,
    places: Places,
    /// How many calls may learn what other ranks have done.
    learns: u32,
    keys: Numbers<u8>,
    spelt: Spelt,
    /// The calls that don't stand in the line behind the call before them, and their lines.
    lines: Vec<(u32, u32)>,
}

impl Reader {
    fn new(is_large: bool) -> Reader {
        Reader {
            is_large,
            limits: if is_large { LARGE } else { FIRST },
            version: None,
            line: 0,
            keeps: false,
            node_names: Numbers::new(),
            jobs: Jobs::new(),
            nodes: Vec::new(),
            starts: Vec::new(),
            calls: Vec::new(),
            places: Places::default(),
            learns: 0,
            keys: Numbers::new(),
            spelt: Spelt::new(),
            lines: Vec::new(),
        }
    }

    /// Takes a piece of whole lines, up to the first fault.
    fn take(&mut self, piece: &[u8]) -> Result<(), Fault> {
        let (mut line, mut at) = (Line::new(), 0);
        while at < piece.len() {
            at = line.split(piece, at);
            self.line += 1;
            if !line.is_skipped() {
                self.take_line(&line).map_err(|it| it.at(self.line))?;
            }
        }
        Ok(())
    }

    /// Takes a line that isn't skipped.
    fn take_line(&mut self, line: &Line) -> Result<(), Wrong> {
        if self.version.is_none() {
            return self.take_header(line);
        }
        if line.is_foreign {
            return Err(Wrong::BadLine);
        }
        match line.verb() {
            RANK => self.take_rank(line),
            KEEP => self.take_keep(line),
            NODE => self.take_node(line),
            JOB => self.take_job(line),
            _ => self.take_call(line),
        }
    }

    fn take_header(&mut self, line: &Line) -> Result<(), Wrong> {
        let version = match line.words() {
            [b"rehearsal", b"1"] => 1,
            [b"rehearsal", b"2"] => 2,
            _ => return Err(Wrong::BadHeader),
        };
        if version == 2 && !self.is_large {
            self.limits = SECOND;
        }
        self.version = Some(version);
        Ok(())
    }

    fn take_keep(&mut self, line: &Line) -> Result<(), Wrong> {
        line.be_one_word()?;
        let is_first = self.node_names.len() == 0 && !self.jobs.is_any() && !self.keeps;
        if self.version != Some(2) || !is_first {
            return Err(Wrong::BadLine);
        }
        self.keeps = true;
        Ok(())
    }

    fn take_node(&mut self, line: &Line) -> Result<(), Wrong> {
        let [word] = line.rest()?;
        if self.jobs.is_any() {
            return Err(Wrong::BadLine);
        }
        let named = name(word)?;
        if self.node_names.find(named).is_some() {
            return Err(Wrong::Twice);
        }
        count(self.node_names.len(), self.limits.nodes)?;
        self.node_names.number_of(named);
        Ok(())
    }

    fn take_job(&mut self, line: &Line) -> Result<(), Wrong> {
        let [word] = line.rest()?;
        let number = self.jobs.number_of(name(word)?);
        if self.jobs.is_declared(number) {
            return Err(Wrong::Twice);
        }
        count(self.jobs.declared.len(), self.limits.jobs)?;
        self.jobs.declare(number, self.nodes.len() as u32);
        Ok(())
    }

    fn take_rank(&mut self, line: &Line) -> Result<(), Wrong> {
        let [word] = line.rest()?;
        if !self.jobs.is_any() {
            return Err(Wrong::BadLine);
        }
        let known = self
            .nodes
            .last()
            .is_some_and(|it| self.node_names.list(*it) == word);
        let node = match self.nodes.last() {
            Some(last) if known => *last,
            _ => self
                .node_names
                .find(name(word)?)
                .ok_or(Wrong::UnknownName)?,
        };
        count(self.nodes.len(), self.limits.ranks)?;
        self.nodes.push(node);
        self.start_rank();
        self.jobs.add_rank();
        Ok(())
    }

    fn take_call(&mut self, line: &Line) -> Result<(), Wrong> {
        if !self.jobs.has_rank() {
            return Err(Wrong::BadLine);
        }
        let call = match line.verb() {
            PUT => self.put(line),
            COMMIT => line
                .be_one_word()
                .map(|()| Call::new(Verb::Commit, 0, 0, 0)),
            FENCE => self.fence(line),
            GET => self.get(line, Verb::Get),
            GET_NOW => self.get(line, Verb::GetNow),
            PUBLISH => self.publish(line),
            LOOKUP => self.on_name(line, Verb::Lookup),
            _ if line.words()[0] == b"lookup-wait" => self.on_name(line, Verb::LookupWait),
            _ if line.words()[0] == b"unpublish" => self.unpublish(line),
            _ => Err(Wrong::BadLine),
        }?;
        count(self.calls.len(), self.limits.calls)?;
        self.note_line();
        self.places
            .note(self.calls.len() as u32, call, &mut self.learns);
        self.calls.push(call);
        Ok(())
    }

    /// Notes where the calls of the next rank begin, or where all end.
    fn start_rank(&mut self) {
        self.starts.push(self.calls.len() as u32);
        self.places.learning.push(self.learns);
    }

    /// Notes the line of the next call.
    fn note_line(&mut self) {
        let place = self.calls.len() as u32;
        let is_next = self
            .lines
            .last()
            .is_some_and(|(call, line)| place - call == self.line - line);
        if !is_next {
            self.lines.push((place, self.line));
        }
    }

    fn put(&mut self, line: &Line) -> Result<Call, Wrong> {
        let [scope, key, value] = line.rest()?;
        let scope = match scope {
            b"local" => NEAR,
            b"remote" => FAR,
            b"global" => NEAR | FAR,
            _ => return Err(Wrong::BadLine),
        };
        be_key(key)?;
        fit(value, VALUE_BYTES)?;
        self.of_key(Verb::Put, scope, 0, key)
    }

    /// A call of a key or a name, which is idle if that is reserved.
    fn of_key(&mut self, verb: Verb, bits: u32, more: u32, key: &[u8]) -> Result<Call, Wrong> {
        fit(key, NAME_BYTES)?;
        let verb = if is_reserved(key) { Verb::Idle } else { verb };
        Ok(Call::new(verb, bits, more, self.keys.number_of(key)))
    }

    fn get(&mut self, line: &Line, verb: Verb) -> Result<Call, Wrong> {
        let [word, key] = line.rest()?;
        be_key(key)?;
        let (job, number) = match self.jobs.number_behind_last(word) {
            Some(number) => (self.jobs.last, number),
            None => {
                let asked = proc(word)?;
                fit(asked.job, NAME_BYTES)?;
                (self.jobs.number_of(asked.job), asked.number)
            }
        };
        let owner = self
            .jobs
            .ask(job, number, self.line, self.calls.len() as u32);
        self.of_key(verb, 0, owner, key)
    }

    fn fence(&mut self, line: &Line) -> Result<Call, Wrong> {
        let (word, bits) = match line.rest_count() {
            2 => match line.rest()? {
                [word, b"collect"] => (word, COLLECTS),
                _ => return Err(Wrong::BadLine),
            },
            _ => (line.rest::<1>()?[0], 0),
        };
        let jobs = &mut self.jobs;
        let set = match word {
            b"all" => self.spelt.whole(jobs.current()),
            _ => self.spelt.set(word, |it| jobs.number_of(it))?,
        };
        Ok(Call::new(Verb::Fence, bits, 0, set))
    }

    fn publish(&mut self, line: &Line) -> Result<Call, Wrong> {
        let [key, value] = line.rest()?;
        be_key(key)?;
        fit(value, VALUE_BYTES)?;
        self.of_key(Verb::Publish, 0, 0, key)
    }

    fn on_name(&mut self, line: &Line, verb: Verb) -> Result<Call, Wrong> {
        let [key] = line.rest()?;
        be_key(key)?;
        self.of_key(verb, 0, 0, key)
    }

    fn unpublish(&mut self, line: &Line) -> Result<Call, Wrong> {
        match line.rest()? {
            [b"*"] if self.version == Some(2) => Ok(Call::new(Verb::UnpublishAll, 0, 0, 0)),
            [_] => self.on_name(line, Verb::Unpublish),
        }
    }

    /// Judges the end of the file, and the call lines once more by all that it declares.
    fn finish(mut self) -> Result<Script, Fault> {
        if self.version.is_none() {
            return Err(Wrong::BadHeader.at(self.line + 1));
        }
        self.start_rank();
        let mut script = Script {
            keeps: self.keeps,
            calls: self.calls,
            starts: self.starts,
            places: self.places,
            nodes: self.nodes,
            jobs: self.jobs.in_order(),
            names: Numbers::new(),
            keys: self.keys,
            sets: Sets::new(),
        };
        judge_names(&mut script, &self.jobs, &self.spelt, &self.lines)?;
        script.names = self.jobs.names;
        Ok(script)
    }
}

/// Refuses one more than the limit.
fn count(there: usize, most: usize) -> Result<(), Wrong> {
    if there == most {
        Err(Wrong::TooMany)
    } else {
        Ok(())
    }
}
