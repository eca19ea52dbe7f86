//! What was met.

use std::fmt::{Display, Formatter, Result};

#[derive(Default)]
pub struct Tally {
    /// Asks by number.
    pub numbers: [u64; 18],
    pub never: u64,
    /// Reached asks by count of steps; the last place has all that are longer.
    pub lengths: [u64; 8],
    pub longest: u64,
    /// Answers confirmed by a search of real steps.
    pub confirmed: u64,
    pub rows: u64,
    /// Records that were looked at: up to the first that is no step.
    pub records: u64,
    pub holds: u64,
    pub no_step: u64,
    pub not_granted: u64,
    /// Replays that were refused.
    pub refused: u64,
}

impl Tally {
    pub fn reached(&mut self, steps: usize) {
        let place = steps.min(self.lengths.len() - 1);
        self.lengths[place] += 1;
        self.longest = self.longest.max(steps as u64);
    }

    pub fn add(&mut self, other: &Tally) {
        let add = |sums: &mut [u64], parts: &[u64]| {
            sums.iter_mut().zip(parts).for_each(|(s, p)| *s += p);
        };
        add(&mut self.numbers, &other.numbers);
        add(&mut self.lengths, &other.lengths);
        self.longest = self.longest.max(other.longest);
        self.never += other.never;
        self.confirmed += other.confirmed;
        self.rows += other.rows;
        self.records += other.records;
        self.holds += other.holds;
        self.no_step += other.no_step;
        self.not_granted += other.not_granted;
        self.refused += other.refused;
    }
}

impl Display for Tally {
    fn fmt(&self, f: &mut Formatter) -> Result {
        let asks: u64 = self.numbers.iter().sum();
        let reached: u64 = self.lengths.iter().sum();
        let by_number = self.numbers.iter().enumerate();
        let by_number: Vec<String> = by_number
            .map(|(n, count)| format!("{n}: {count}"))
            .collect();
        let (last, lengths) = self.lengths.split_last().expect("there are lengths");
        writeln!(f, "{asks} asks by number: {}", by_number.join(", "))?;
        writeln!(
            f,
            "reached {reached}, never {}; steps from 0: {lengths:?}, more: {last}, longest {}; \
             confirmed by real steps {}",
            self.never, self.longest, self.confirmed
        )?;
        writeln!(
            f,
            "{} records in {} rows: holds {}, no step {}, not granted {}, refused {}",
            self.records, self.rows, self.holds, self.no_step, self.not_granted, self.refused
        )
    }
}
