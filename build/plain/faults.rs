//! What ends a run without an answer: a fault of the file, or of reading or writing.

/// A fault: its number, its name, the number behind it if it has one, and the exit status.
#[derive(Clone, Copy, Debug, PartialEq, Eq)]
pub struct Fault {
    number: u32,
    name: &'static str,
    more: Option<u64>,
    status: i32,
}

/// What can be wrong with a line of a plan.
#[derive(Clone, Copy, Debug, PartialEq, Eq)]
pub enum Wrong {
    TooLong,
    BadHeader,
    BadLine,
    UnknownName,
    Twice,
    NotMember,
    TooMany,
}

impl Wrong {
    /// The fault of a line, by its number from 1.
    pub fn at(self, line: u32) -> Fault {
        let (number, name) = match self {
            Wrong::TooLong => (2, "TooLong"),
            Wrong::BadHeader => (3, "BadHeader"),
            Wrong::BadLine => (4, "BadLine"),
            Wrong::UnknownName => (5, "UnknownName"),
            Wrong::Twice => (6, "Twice"),
            Wrong::NotMember => (7, "NotMember"),
            Wrong::TooMany => (8, "TooMany"),
        };
        let more = Some(u64::from(line));
        Fault {
            number,
            name,
            more,
            status: 2,
        }
    }
}

impl Fault {
    /// An input can't be opened, or a read of it failed.
    pub fn read() -> Fault {
        Fault {
            number: 10,
            name: "Read",
            more: None,
            status: 4,
        }
    }

    /// A write failed after so many bytes.
    pub fn write(bytes: u64) -> Fault {
        Fault {
            number: 11,
            name: "Write",
            more: Some(bytes),
            status: 4,
        }
    }

    /// The exit status of a run that ends with it.
    pub fn status(self) -> i32 {
        self.status
    }

    /// Its line, without the line feed.
    pub fn line(self) -> String {
        let more = self.more.map_or(String::new(), |it| format!(" {it}"));
        format!("wire_up: fault {} {}{more}", self.number, self.name)
    }
}
