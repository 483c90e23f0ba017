//! Every list of errors that the library answers, through `ownership_reports`: each record must be the Rust's error, and what is lent as it
//! was past the records, and all of it with 14.
use crate::differ::Memory;
use crate::ours::{self, ERROR_NUMBERS, Report};
use crate::random::Random;

/// A run, and what it counts.
pub struct Reports {
    random: Random,
    memory: Memory<u32>,
    lists: usize,
    calls: usize,
    records: usize,
    refused: usize,
}

impl Reports {
    pub fn new(seed: u64) -> Self {
        Reports { random: Random::new(seed ^ 0x4ec0), memory: Memory::new(), lists: 0, calls: 0, records: 0, refused: 0 }
    }

    /// Empty, or what differs; the numbers of the errors stand first in those given.
    pub fn check(&mut self, numbers: &[u32], reports: &[Report]) -> String {
        let n = reports.len();
        let whole = &numbers[..ERROR_NUMBERS * n];
        let [few, more, short] = [self.random.below(n + 1), self.random.below(4), self.random.below(whole.len().max(1))];
        let beyond = self.random.one_of(&[n + 1, usize::MAX, usize::MAX / ERROR_NUMBERS + 1, 1 << 62]);
        self.lists += 1;
        let mut found = String::new();
        // more than is needed; exactly as much; the first errors alone; none; more errors than there are numbers or records
        for (numbers, count, lent) in [
            (numbers, n, n + more),
            (whole, n, n),
            (numbers, few, n),
            (numbers, 0, more),
            (&[], 0, 0),
            (whole, n + 1, n + 1),
            (numbers, beyond, n),
        ] {
            found += &self.call(numbers, count, lent, reports);
        }
        if n > 0 {
            // a record too few, by one and by more; a number too few, by one and by more
            for (numbers, lent) in
                [(numbers, n - 1), (numbers, few.min(n - 1)), (&whole[..whole.len() - 1], n), (&whole[..short], n + more)]
            {
                found += &self.call(numbers, n, lent, reports);
            }
        }
        found
    }

    /// One call, with so many records lent.
    fn call(&mut self, numbers: &[u32], count: usize, lent: usize, reports: &[Report]) -> String {
        self.calls += 1;
        let memory = self.memory.lend(ERROR_NUMBERS * lent, &mut self.random, |n| (n >> 32) as u32);
        let answer = ours::reports(numbers, count, memory);
        let refused = lent < count || (numbers.len() as u128) < ERROR_NUMBERS as u128 * count as u128;
        let (fault, written) = if refused { (14, 0) } else { (0, count) };
        self.refused += refused as usize;
        self.records += written;
        let mut found = self.memory.difference("words of the records", ours::words(&reports[..written]));
        if answer != fault {
            found += &format!("ownership_reports answers {answer}, not {fault}; ");
        }
        if !found.is_empty() {
            found += &format!("{count} errors, {} numbers, {lent} records lent; ", numbers.len());
        }
        found
    }

    pub fn print(&self) {
        if !ours::REPORTS {
            return println!("  {}", crate::NO_REPORTS);
        }
        println!(
            "  {} lists of errors as records: {} calls of ownership_reports, {} records, {} calls with 14 and nothing changed",
            self.lists, self.calls, self.records, self.refused
        );
    }
}
