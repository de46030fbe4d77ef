//! The findings as lines.

use crate::faults::Fault;
use crate::key_races::Race;
use crate::name_races::{NameRaces, Other};
use crate::output::Output;
use crate::puts::Puts;
use crate::script::{Call, Script, Verb};

/// Writes the findings of a plan.
pub struct Findings<'a> {
    script: &'a Script,
    output: Output,
    count: u64,
    /// The rank of the last lower call of a race.
    lower_rank: u32,
}

impl<'a> Findings<'a> {
    pub fn new(script: &'a Script, output: Output) -> Findings<'a> {
        Findings {
            script,
            output,
            count: 0,
            lower_rank: 0,
        }
    }

    /// Writes all of them, and answers how many there are.
    pub fn write(
        mut self,
        puts: &Puts,
        on_keys: &[Race],
        mut on_names: NameRaces,
    ) -> Result<u64, Fault> {
        self.rewrites(puts)?;
        let (mut keys, mut others) = (on_keys.iter().peekable(), Vec::new());
        while let Some(place) = on_names.next(&mut others) {
            if others.is_empty() {
                continue;
            }
            while let Some(race) = keys.next_if(|it| lower(**it) < place) {
                self.key_race(*race)?;
            }
            self.name_races(place, &others)?;
        }
        for race in keys {
            self.key_race(*race)?;
        }
        self.output.text(b"findings ");
        self.output.text(self.count.to_string().as_bytes());
        self.output.end_line()?;
        self.output.send()?;
        Ok(self.count)
    }

    fn rewrites(&mut self, puts: &Puts) -> Result<(), Fault> {
        for it in &puts.rewrites {
            self.output.text(b"rewrite ");
            self.proc(it.rank);
            self.number(it.first + 1);
            self.number(it.later + 1);
            self.key(it.key);
            self.end()?;
        }
        Ok(())
    }

    fn key_race(&mut self, race: Race) -> Result<(), Fault> {
        let (one, other) = (lower(race), race as u32);
        self.lower(one);
        let rank = self.script.rank_from(self.lower_rank, other);
        self.call(rank, other);
        let calls = [one, other].map(|it| self.script.calls[it as usize]);
        let is_question = |it: &&Call| it.verb() == Verb::GetNow;
        if let Some(asked) = calls.iter().find(is_question) {
            self.output.text(b" key ");
            self.proc(asked.more());
            self.key(asked.about);
        }
        self.end()
    }

    /// Writes the races of a call with others.
    fn name_races(&mut self, place: u32, others: &[Other]) -> Result<(), Fault> {
        let start = self.output.len();
        self.lower(place);
        let head = self.output.take_from(start);
        let (mut rank, mut end) = (self.lower_rank, 0);
        for it in others {
            if it.place >= end {
                rank = self.script.rank_from(rank, it.place);
                end = self.script.starts[rank as usize + 1];
            }
            self.output.text(&head);
            self.proc(rank);
            self.number(it.place - self.script.starts[rank as usize] + 1);
            self.output.text(b" name");
            self.key(it.name);
            self.end()?;
        }
        Ok(())
    }

    /// Writes how the line of a race begins: with its lower call. Races come in the order of these.
    fn lower(&mut self, place: u32) {
        self.lower_rank = self.script.rank_from(self.lower_rank, place);
        self.output.text(b"race ");
        self.call(self.lower_rank, place);
        self.output.text(b" ");
    }

    /// Writes a call of a rank by its place among all.
    fn call(&mut self, rank: u32, place: u32) {
        self.proc(rank);
        self.number(place - self.script.starts[rank as usize] + 1);
    }

    fn proc(&mut self, rank: u32) {
        let jobs = &self.script.jobs;
        let job = jobs[jobs.partition_point(|it| it.first <= rank) - 1];
        self.output.text(self.script.names.list(job.name));
        self.output.text(b":");
        self.output.number(rank - job.first);
    }

    /// Writes a space and a number.
    fn number(&mut self, number: u32) {
        self.output.text(b" ");
        self.output.number(number);
    }

    /// Writes a space and a key or a name.
    fn key(&mut self, key: u32) {
        self.output.text(b" ");
        self.output.text(self.script.keys.list(key));
    }

    /// Ends the line of a finding.
    fn end(&mut self) -> Result<(), Fault> {
        self.count += 1;
        self.output.end_line()
    }
}

/// The lower call of a race.
fn lower(race: Race) -> u32 {
    (race >> 32) as u32
}
