//! The figures of a run.

use oracle::class::{self, Class, CLASSES};

use crate::lent::{Lending, OUTS, WORKS};

/// How many reports are printed; a sheet has one for each call that is not as expected.
const PRINTED: usize = 10;
/// The last refusal.
pub const LAST_NUMBER: usize = 11;

#[derive(Default)]
pub struct Tally {
    pub sheets: u64,
    pub calls: u64,
    /// Those that checks 2 to 7 and 11 let pass, with a power in them.
    pub with_power: u64,
    /// By number, at full lending; 0 is a list.
    pub numbers: [u64; LAST_NUMBER + 1],
    /// By number, over all calls.
    pub answers: [u64; LAST_NUMBER + 1],
    pub classes: [u64; CLASSES.len()],
    pub works: [u64; WORKS.len()],
    pub outs: [u64; OUTS.len()],
    /// The longest list, in operations, and the most temporaries.
    pub longest: u64,
    pub most_temps: u64,
    pub unexplained: u64,
    pub reports: Vec<String>,
}

impl Tally {
    pub fn count_class(&mut self, class: Class) {
        self.classes[class::row(class)] += 1;
    }

    pub fn count_call(&mut self, lending: Lending, number: u32) {
        self.calls += 1;
        self.answers[number.min(LAST_NUMBER as u32) as usize] += 1;
        self.works[lending.work] += 1;
        self.outs[lending.out] += 1;
    }

    pub fn count_list(&mut self, operations: usize, temporaries: u32) {
        self.longest = self.longest.max(operations as u64);
        self.most_temps = self.most_temps.max(temporaries.into());
    }

    pub fn count_unexplained(&mut self, report: impl FnOnce() -> String) {
        self.unexplained += 1;
        self.keep(report);
    }

    fn keep(&mut self, report: impl FnOnce() -> String) {
        if self.reports.len() < PRINTED {
            self.reports.push(report());
        }
    }

    pub fn add(&mut self, other: Tally) {
        self.sheets += other.sheets;
        self.calls += other.calls;
        self.with_power += other.with_power;
        add_each(&mut self.numbers, &other.numbers);
        add_each(&mut self.answers, &other.answers);
        add_each(&mut self.classes, &other.classes);
        add_each(&mut self.works, &other.works);
        add_each(&mut self.outs, &other.outs);
        self.longest = self.longest.max(other.longest);
        self.most_temps = self.most_temps.max(other.most_temps);
        self.unexplained += other.unexplained;
        other.reports.into_iter().for_each(|report| self.keep(|| report));
    }
}

fn add_each(sums: &mut [u64], more: &[u64]) {
    sums.iter_mut().zip(more).for_each(|(sum, more)| *sum += more);
}

/// 1234567 as 1,234,567.
pub fn commas(number: u64) -> String {
    let digits = number.to_string();
    let mut text = String::new();
    for (at, digit) in digits.chars().enumerate() {
        if at > 0 && (digits.len() - at) % 3 == 0 {
            text.push(',');
        }
        text.push(digit);
    }
    text
}

/// The figures of some runs, a column each.
pub fn print(runs: &[(&str, Tally)]) {
    let columns = |cell: &dyn Fn(&(&str, Tally)) -> String, name: &str| {
        let cells: Vec<String> = runs.iter().map(|run| format!("{:>10}", cell(run))).collect();
        println!("{} {name}", cells.join(" "));
    };
    let row = |of: &dyn Fn(&Tally) -> u64, name: &str| {
        columns(&|(_, tally)| commas(of(tally)), name);
    };
    columns(&|(name, _)| name.to_string(), "");
    row(&|tally| tally.sheets, "sheets");
    row(&|tally| tally.with_power, "with a power, and read");
    println!("The Rust's answer:");
    for (at, (_, name)) in CLASSES.iter().enumerate() {
        row(&|tally| tally.classes[at], name);
    }
    println!("At full lending:");
    row(&|tally| tally.numbers[0], "with a list");
    for number in 2..=LAST_NUMBER {
        row(&|tally| tally.numbers[number], &format!("refused {number}"));
    }
    println!("Calls:");
    row(&|tally| tally.answers[0], "with a list");
    for number in 1..=LAST_NUMBER {
        row(&|tally| tally.answers[number], &format!("refused {number}"));
    }
    println!("Calls by words lent:");
    for (at, (name, _)) in WORKS.iter().enumerate() {
        row(&|tally| tally.works[at], &format!("work of {name}"));
    }
    for (at, (name, _)) in OUTS.iter().enumerate() {
        row(&|tally| tally.outs[at], &format!("output of {name}"));
    }
    println!("Lists that checks 2 to 9 and 11 let pass:");
    row(&|tally| tally.longest, "operations at most");
    row(&|tally| tally.most_temps, "temporaries at most");
}
