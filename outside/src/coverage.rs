//! What the calls of the scripts met.

use std::collections::BTreeMap;
use std::fmt;

use crate::Refusal;
use crate::array::Source;
use crate::block::Shape;
use crate::call::{Call, NAMES};
use crate::finding::{Condition, Findings};
use crate::replay::{Done, Outcome};
use crate::shelf::Seen;

const OUTCOMES: usize = 12;
const ACCEPTED: usize = 0;
const NO_JOB: usize = 11;

/// Rows of the table: the codes, and then the steps around the calls.
const MADE: usize = NAMES.len();
const BEGUN: usize = MADE + 1;
const SURVEY: usize = MADE + 2;
const ROWS: usize = MADE + 3;

/// The outcomes that each row can meet.
const POSSIBLE: [&[usize]; ROWS] = [
    &[ACCEPTED, 1, 3, 8, 9],
    &[ACCEPTED, 1, 3, 5, 8, 10],
    &[ACCEPTED, 4],
    &[ACCEPTED, 1, 3],
    &[ACCEPTED, 4, 6],
    &[ACCEPTED, 4, 6],
    &[ACCEPTED, 4, 6, NO_JOB],
    &[ACCEPTED, 6, NO_JOB],
    &[ACCEPTED, 6, NO_JOB],
    &[ACCEPTED, 4, 7],
    &[ACCEPTED, 4, 7],
    &[ACCEPTED, 4],
    &[ACCEPTED],
    &[ACCEPTED, 4],
    &[ACCEPTED],
    &[ACCEPTED, 1, 4],
    &[ACCEPTED, 1, 4],
    &[ACCEPTED, 1, 2],
    &[ACCEPTED, 2],
    &[ACCEPTED, 2],
];

/// What calls answered beyond being accepted.
const DETAILS: [&str; 32] = [
    "read: found after 2 looks",
    "read: found after N looks",
    "read: rebuilt",
    "write: after 2 looks",
    "write: after N looks",
    "look: to the end",
    "look: stopped by 8",
    "look: stopped by 9",
    "scrub: of 0 stripes",
    "scrub: more than one lap",
    "scrubbed stripe: clean",
    "scrubbed stripe: mended",
    "scrubbed stripe: short",
    "scrubbed stripe: lost",
    "rebuild: nothing moved",
    "rebuilt stripe: mended",
    "rebuilt stripe: lost",
    "shelf read: present",
    "shelf read: blind",
    "finding: data readable",
    "finding: parity readable",
    "finding: data blind",
    "finding: parity blind",
    "finding: data broken",
    "finding: parity broken",
    "finding: data foreign",
    "finding: parity foreign",
    "finding: data behind",
    "finding: parity behind",
    "finding: data mended",
    "finding: parity mended",
    "script with too little room for answers",
];

#[derive(Clone, Debug, Default)]
pub struct Coverage {
    pub scripts: u64,
    pub calls: u64,
    counts: [[u64; OUTCOMES]; ROWS],
    details: BTreeMap<&'static str, u64>,
}

impl Coverage {
    pub fn made(&mut self, number: u32) {
        if let Some(count) = self.counts[MADE].get_mut(number as usize) {
            *count += 1;
        }
    }

    pub fn begun(&mut self, refusal: Option<Refusal>) {
        self.counts[BEGUN][number_of(refusal)] += 1;
    }

    pub fn surveyed(&mut self, refusal: Option<Refusal>) {
        self.counts[SURVEY][number_of(refusal)] += 1;
    }

    pub fn cut_short(&mut self) {
        self.detail("script with too little room for answers", 1);
    }

    /// The findings that a call has filled.
    pub fn findings(&mut self, findings: &Findings, shape: Shape) {
        for finding in findings {
            let is_parity = finding.slot as usize == shape.parity_slot(finding.block);
            let either = |data, parity| if is_parity { parity } else { data };
            let name = match finding.condition {
                Condition::NotLooked => continue,
                Condition::Readable => either("finding: data readable", "finding: parity readable"),
                Condition::Blind => either("finding: data blind", "finding: parity blind"),
                Condition::Broken => either("finding: data broken", "finding: parity broken"),
                Condition::Foreign => either("finding: data foreign", "finding: parity foreign"),
                Condition::Behind => either("finding: data behind", "finding: parity behind"),
            };
            self.detail(name, 1);
            self.detail(either("finding: data mended", "finding: parity mended"), u32::from(finding.mended));
        }
    }

    pub fn call(&mut self, call: &Call, outcome: Outcome, blocks: u32) {
        self.calls += 1;
        let column = match outcome {
            Outcome::Accepted(done) => {
                self.done(done, blocks);
                ACCEPTED
            }
            Outcome::Refused(refusal) => refusal.number() as usize,
            Outcome::NoJob => NO_JOB,
        };
        self.counts[call.code() as usize - 1][column] += 1;
    }

    fn done(&mut self, done: Done, blocks: u32) {
        match done {
            Done::Read(answer) => match (answer.source, answer.looks) {
                (Source::Rebuilt, _) => self.detail("read: rebuilt", 1),
                (Source::Found, 2) => self.detail("read: found after 2 looks", 1),
                (Source::Found, _) => self.detail("read: found after N looks", 1),
            },
            Done::Write(answer) => {
                self.detail(if answer.looks == 2 { "write: after 2 looks" } else { "write: after N looks" }, 1);
            }
            Done::Scrub(answer) => {
                self.detail("scrub: of 0 stripes", u32::from(answer.looked == 0));
                self.detail("scrub: more than one lap", u32::from(answer.looked > blocks));
                self.detail("scrubbed stripe: clean", answer.clean);
                self.detail("scrubbed stripe: mended", answer.mended);
                self.detail("scrubbed stripe: short", answer.short);
                self.detail("scrubbed stripe: lost", answer.lost);
            }
            Done::Look(answer) => match answer.stopped {
                None => self.detail("look: to the end", 1),
                Some(Refusal::Lost) => self.detail("look: stopped by 8", 1),
                Some(_) => self.detail("look: stopped by 9", 1),
            },
            Done::Rebuild(answer) => {
                self.detail("rebuild: nothing moved", u32::from(answer.moved == 0));
                self.detail("rebuilt stripe: mended", answer.mended);
                self.detail("rebuilt stripe: lost", answer.lost);
            }
            Done::ShelfRead(Seen::Present) => self.detail("shelf read: present", 1),
            Done::ShelfRead(Seen::Blind) => self.detail("shelf read: blind", 1),
            Done::Other => {}
        }
    }

    fn detail(&mut self, name: &'static str, count: u32) {
        *self.details.entry(name).or_default() += u64::from(count);
    }

    fn count_of(&self, detail: &str) -> u64 {
        self.details.get(detail).copied().unwrap_or(0)
    }

    /// What could be met and was not.
    pub fn missing(&self) -> Vec<String> {
        let outcomes = POSSIBLE.iter().enumerate().flat_map(|(row, columns)| {
            columns
                .iter()
                .filter(move |&&column| self.counts[row][column] == 0)
                .map(move |&column| format!("{} {}", row_name(row), column_name(column)))
        });
        let details = DETAILS.iter().filter(|&name| self.count_of(name) == 0);
        outcomes.chain(details.map(|name| name.to_string())).collect()
    }
}

fn number_of(refusal: Option<Refusal>) -> usize {
    refusal.map_or(ACCEPTED, |refusal| refusal.number() as usize)
}

fn row_name(row: usize) -> String {
    match row {
        MADE => "image".to_string(),
        BEGUN => "format or open".to_string(),
        SURVEY => "survey".to_string(),
        code => format!("{:2} {}", code + 1, NAMES[code]),
    }
}

fn column_name(column: usize) -> String {
    match column {
        ACCEPTED => "accepted".to_string(),
        NO_JOB => "no job".to_string(),
        number => number.to_string(),
    }
}

impl fmt::Display for Coverage {
    fn fmt(&self, f: &mut fmt::Formatter<'_>) -> fmt::Result {
        write!(f, "{:<15}", "call")?;
        for column in 0..OUTCOMES {
            write!(f, "{:>9}", column_name(column))?;
        }
        for (row, counts) in self.counts.iter().enumerate() {
            write!(f, "\n{:<15}", row_name(row))?;
            for (column, &count) in counts.iter().enumerate() {
                if count == 0 && !POSSIBLE[row].contains(&column) {
                    write!(f, "{:>9}", ".")?;
                } else {
                    write!(f, "{count:>9}")?;
                }
            }
        }
        for pair in DETAILS.chunks(2) {
            let [first, rest @ ..] = pair else { continue };
            write!(f, "\n{first:<40}{:>9}", self.count_of(first))?;
            if let [second] = rest {
                write!(f, "    {second:<40}{:>9}", self.count_of(second))?;
            }
        }
        Ok(())
    }
}
