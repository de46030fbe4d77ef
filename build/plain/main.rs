//! An unproved program beside the proved one: `check` of plans, by one thread.
//!
//! It is written from the documents alone, for speed, and says what `wire_up check` says, byte for
//! byte. So it shows what a proof costs in time and memory, and that two readings of the documents
//! agree.
//!
//! Usage: plain check [--large] [FILE], or plain check --help

mod bringing;
mod clocks;
mod faults;
mod fences;
mod input;
mod judging;
mod key_races;
mod name_races;
mod names;
mod numbers;
mod order;
mod output;
mod puts;
mod reading;
mod script;
mod sets;
mod words;
mod writing;

use std::ffi::OsString;
use std::fs::File;
use std::io::Read;
use std::process::exit;

use faults::Fault;
use fences::Fences;
use input::Input;
use key_races::find_key_races;
use name_races::NameRaces;
use names::Names;
use order::order_of;
use output::Output;
use puts::Puts;
use writing::Findings;

/// The exit status of words that aren't those of the usage.
const USAGE: i32 = 5;

/// How the program is called.
const CALL: &str = "usage: plain check [--large] [FILE]";

/// What the command line asks for.
struct Asked {
    is_large: bool,
    is_help: bool,
    file: Option<OsString>,
}

/// Reads the command line.
fn asked() -> Option<Asked> {
    let mut words = std::env::args_os().skip(1);
    let mut asked = Asked {
        is_large: false,
        is_help: false,
        file: None,
    };
    words.next().filter(|it| it == "check")?;
    for word in words {
        let is_option = word.as_encoded_bytes().starts_with(b"-");
        if word == "--large" && !asked.is_large {
            asked.is_large = true;
        } else if word == "--help" {
            asked.is_help = true;
        } else if is_option || asked.file.is_some() {
            return None;
        } else {
            asked.file = Some(word);
        }
    }
    Some(asked)
}

/// The file that is asked for, or standard input.
fn open(file: Option<OsString>) -> Result<Box<dyn Read>, Fault> {
    match file {
        Some(path) => Ok(Box::new(File::open(path).map_err(|_| Fault::read())?)),
        None => Ok(Box::new(std::io::stdin().lock())),
    }
}

/// Writes the findings of a plan, and answers how many there are.
fn check(asked: Asked) -> Result<u64, Fault> {
    let source = open(asked.file)?;
    let mut input = Input::new(source, reading::most_bytes(asked.is_large));
    let mut script = reading::read(&mut input, asked.is_large)?;
    let fences = Fences::of(&mut script);
    let puts = Puts::of(&script);
    let names = Names::of(&script);
    let order = order_of(&script, &puts, &fences, &names);
    let on_keys = find_key_races(&script, &puts, &fences, &order);
    let on_names = NameRaces::new(&script, &order, &names);
    Findings::new(&script, Output::new()?).write(&puts, &on_keys, on_names)
}

fn main() {
    let Some(asked) = asked() else {
        eprintln!("{CALL}");
        exit(USAGE);
    };
    if asked.is_help {
        println!("{CALL}");
        exit(0);
    }
    match check(asked) {
        Ok(count) => exit(i32::from(count > 0)),
        Err(fault) => {
            eprintln!("{}", fault.line());
            exit(fault.status());
        }
    }
}
