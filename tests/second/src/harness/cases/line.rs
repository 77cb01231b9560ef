//! A line of the program `cases`: a name, then what each call gave, in words and
//! numbers with a space before each.

use crate::harness::comparison::call::{perform, Answer, Call};
use crate::interface::Handed;
use crate::oracle::Oracle;
use std::fmt::Display;

pub struct Line<'a> {
    plan: &'a [u8],
    text: String,
}

/// The line of a case on one plan; `ask` makes its calls.
pub fn line(name: &str, plan: &[u8], ask: impl FnOnce(&mut Line)) -> String {
    let mut line = Line { plan, text: name.to_string() };
    ask(&mut line);
    line.text + "\n"
}

impl Line<'_> {
    pub fn word(&mut self, word: impl Display) {
        self.text += &format!(" {word}");
    }

    fn bytes(&mut self, bytes: &[u8]) {
        bytes.iter().for_each(|byte| self.word(byte));
    }

    /// The result fields are 0 before the call, or what is left of them.
    fn answer(&self, call: &Call) -> Answer {
        perform(&mut Oracle::right(), self.plan, call, 0)
    }

    pub fn check(&mut self) {
        let answer = self.answer(&Call::Check);
        self.word(answer.refusal);
    }

    /// The refusal, how many numbers are handed back, and these.
    pub fn list(&mut self, list: usize) {
        let answer = self.answer(&Call::List { list });
        self.word(answer.refusal);
        let numbers = match (answer.refusal, &answer.fields[..]) {
            (0, &[start, count]) => &self.plan[start as usize..][..count as usize],
            _ => &[],
        };
        self.word(numbers.len());
        self.bytes(numbers);
    }

    /// The refusal, or the word for a result.
    fn choice(&mut self, call: &Call, words: &[&str]) {
        let answer = self.answer(call);
        match answer.refusal {
            0 => self.word(words[answer.fields[0] as usize]),
            refusal => self.word(refusal),
        }
    }

    /// A comparison of two routes that their egress routers told.
    pub fn compare(&mut self, router: usize, first: usize, second: usize) {
        self.compare_handed(router, [first, second].map(Handed::told));
    }

    /// The refusal, or which is better and the margin.
    pub fn compare_handed(&mut self, router: usize, routes: [Handed; 2]) {
        let call = Call::Compare { router, routes };
        self.choice(&call, &["neither", "first", "second"]);
        let answer = self.answer(&call);
        if answer.refusal == 0 {
            self.word("margin");
            self.word(answer.compared().1.map_or("none".to_string(), |margin| margin.to_string()));
        }
    }

    pub fn relies(&mut self, list: usize, router: usize, other: usize) {
        self.choice(&Call::Relies { list, router, other }, &["no", "yes"]);
    }

    /// An activation on a table, which becomes what the call leaves.
    pub fn activate(&mut self, list: usize, router: usize, table: &mut Vec<u8>) {
        let answer = self.answer(&Call::Activate { list, router, table: table.clone() });
        table.clone_from(&answer.buffers[0]);
        self.word(answer.refusal);
        self.word("table");
        self.bytes(table);
    }

    /// A run on a table, which becomes what the call leaves. Beside a refusal
    /// every result is 0 or no.
    pub fn run(&mut self, list: usize, sequence: &[u8], limit: u64, table: &mut Vec<u8>) {
        let answer = self.answer(&Call::Run { list, sequence: sequence.to_vec(), limit, table: table.clone() });
        table.clone_from(&answer.buffers[0]);
        let fields = if answer.refusal == 0 { answer.fields } else { vec![0; 3] };
        self.word(answer.refusal);
        self.word(fields[0]);
        self.word(fields[1]);
        self.word(["no", "yes"][fields[2] as usize]);
        self.word("table");
        self.bytes(table);
    }

    /// A verdict with buffers of these lengths, each byte 7 before.
    pub fn verdict(&mut self, list: usize, lengths: [usize; 4]) {
        let answer = self.answer(&Call::Verdict { list, buffers: lengths.map(|length| vec![7; length]) });
        match answer.refusal {
            0 => {
                self.word(["suspect", "stable"][answer.fields[0] as usize]);
                self.word(answer.fields[1]);
            }
            refusal => self.word(refusal),
        }
        for (name, buffer) in ["labels", "ranks", "table", "cycle"].into_iter().zip(&answer.buffers) {
            self.word(name);
            self.bytes(buffer);
        }
    }

    /// The numbers of steady tables with a buffer of this length, each byte 7 before.
    pub fn steady(&mut self, list: usize, length: usize) {
        let answer = self.answer(&Call::Steady { list, out: vec![7; length] });
        match answer.refusal {
            0 => {
                self.word("listed");
                self.word(answer.fields[0]);
            }
            refusal => self.word(refusal),
        }
        self.word("numbers");
        self.bytes(&answer.buffers[0]);
    }

    /// The refusal, or the grade and the rounds.
    pub fn grade(&mut self, list: usize) {
        let answer = self.answer(&Call::Grade { list });
        match (answer.refusal, &answer.fields[..]) {
            (0, [grade, rounds]) => self.word(format!("grade {grade} rounds {rounds}")),
            (refusal, _) => self.word(refusal),
        }
    }
}
