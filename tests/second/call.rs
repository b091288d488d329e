//! One ask with everything it is lent: a value that can be printed, read back from its print, and compared after the ask.

use std::fmt;

#[derive(Clone, Copy, PartialEq, Eq, PartialOrd, Ord, Debug)]
pub enum Ask {
    Schedule,
    FreeSlots,
    Delays,
    Judge,
    Pattern,
    Read,
    Write,
}

use Ask::*;

impl Ask {
    pub const ALL: [Ask; 7] = [Schedule, FreeSlots, Delays, Judge, Pattern, Read, Write];

    pub fn name(self) -> &'static str {
        match self {
            Schedule => "schedule",
            FreeSlots => "free_slots",
            Delays => "delays",
            Judge => "judge",
            Pattern => "pattern",
            Read => "read",
            Write => "write",
        }
    }

    /// The refusals of each ask, in the order in which they are given.
    pub fn refusals(self) -> &'static [u8] {
        match self {
            Schedule => &[1, 2, 3, 6, 7, 5],
            FreeSlots => &[1, 2, 3, 9],
            Delays => &[1, 2, 3, 4, 5],
            Judge => &[1, 2, 3, 4, 5, 6],
            Pattern => &[1, 2, 3, 4, 8, 6],
            Read => &[20, 21, 22, 23, 24, 25, 26],
            Write => &[1, 2, 3, 4, 28],
        }
    }
}

/// An ask and its lists. Whether a list is given or a buffer to fill depends on the ask: the table is filled by `Read`, the pattern
/// by `Judge` and `Pattern`, the file by `Write`. A list that the ask does not take stays empty.
#[derive(Clone, PartialEq, Debug)]
pub struct Call {
    pub ask: Ask,
    pub k: u32,
    pub a: u32,
    pub b: u32,
    pub job: u32,
    pub table: Vec<u32>,
    pub pattern: Vec<u32>,
    /// The buffer for finishes or delays.
    pub times: Vec<u32>,
    pub file: Vec<u8>,
    /// Set when an ask wrote outside what it was lent.
    pub strayed: bool,
}

impl Call {
    pub fn new(ask: Ask, table: &[u32]) -> Call {
        let (k, a, b, job) = (0, 0, 0, 0);
        Call { ask, k, a, b, job, table: table.to_vec(), pattern: vec![], times: vec![], file: vec![], strayed: false }
    }

    /// The table's n.
    pub fn n(&self) -> usize {
        self.table.len() / 4
    }

    /// Read a printed call back, as `judge k=2 table=0,2,3,1 times=9 pattern=9`.
    pub fn parse(line: &str) -> Option<Call> {
        let mut words = line.split_whitespace();
        let name = words.next()?;
        let mut call = Call::new(*Ask::ALL.iter().find(|ask| ask.name() == name)?, &[]);
        for word in words {
            let (field, text) = word.split_once('=')?;
            let numbers: Vec<u32> = text.split(',').map(|number| number.parse().ok()).collect::<Option<_>>()?;
            match field {
                "k" => call.k = numbers[0],
                "a" => call.a = numbers[0],
                "b" => call.b = numbers[0],
                "job" => call.job = numbers[0],
                "table" => call.table = numbers,
                "pattern" => call.pattern = numbers,
                "times" => call.times = numbers,
                "file" => call.file = numbers.iter().map(|&byte| byte as u8).collect(),
                _ => return None,
            }
        }
        Some(call)
    }
}

impl fmt::Display for Call {
    fn fmt(&self, f: &mut fmt::Formatter) -> fmt::Result {
        fn list<T: ToString>(numbers: &[T]) -> String {
            numbers.iter().map(T::to_string).collect::<Vec<_>>().join(",")
        }
        write!(f, "{}", self.ask.name())?;
        for (field, number) in [("k", self.k), ("a", self.a), ("b", self.b), ("job", self.job)] {
            if number != 0 {
                write!(f, " {field}={number}")?;
            }
        }
        for (field, text) in [
            ("table", list(&self.table)),
            ("pattern", list(&self.pattern)),
            ("times", list(&self.times)),
            ("file", list(&self.file)),
        ] {
            if !text.is_empty() {
                write!(f, " {field}={text}")?;
            }
        }
        if self.strayed {
            write!(f, " (wrote outside what it was lent)")?;
        }
        Ok(())
    }
}
