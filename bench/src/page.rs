//! The page of document 02 (a), made from the Rust's answer, and the library's beside it: 16 or the page, and nothing else changed.
use crate::answer::Answer;
use crate::differ::Memory;
use crate::ours::{self, Switches};
use crate::random::Random;

const KINDS: [&str; 8] =
    ["deleted", "moved", "consumed", "potentially deleted", "potentially moved", "potentially consumed", "bad move", "global moved"];

/// The pages of which every length is lent have at most so many bytes; of longer ones those round each line's end.
const EVERY: usize = 8_000;

pub fn of(a: &Answer) -> Vec<u8> {
    let mut page = String::new();
    for e in &a.errors {
        entry(&mut page, KINDS[e.kind as usize - 1], e.place, &e.others);
    }
    for (span, offset) in &a.warnings {
        entry(&mut page, "unused result", *span, &[*offset as u32]);
    }
    for (span, name, born) in &a.lefts {
        entry(&mut page, "left behind", *span, &[*name as u32, *born]);
    }
    page.into_bytes()
}

fn entry(page: &mut String, name: &str, place: u32, others: &[u32]) {
    let mut begin = format!("{name:<24}{place:>12}");
    for three in others.chunks(3).chain(others.is_empty().then_some(&[][..])) {
        let line: String = three.iter().map(|p| format!("{p:>12}")).collect();
        *page += &format!("{begin}{line:<36}\n");
        begin = " ".repeat(36);
    }
}

/// A run, and what it counts.
pub struct Pages {
    random: Random,
    memory: Memory<u8>,
    calls: usize,
    lines: usize,
    refused: usize,
}

impl Pages {
    pub fn new(seed: u64) -> Self {
        Pages { random: Random::new(seed ^ 0x9a6e), memory: Memory::new(), calls: 0, lines: 0, refused: 0 }
    }

    /// Empty, or what differs; `all`: with every length from 0 to one more than is needed, of a long page with those round each line's end.
    pub fn check(&mut self, switches: Switches, image: &[u8], fault: u8, page: &[u8], all: bool) -> String {
        self.lines += page.len() / 73;
        let n = page.len();
        let some = [n, n + 1, n.saturating_sub(1), n.saturating_sub(73), self.random.below(n + 1), n + self.random.below(200), 0];
        let lengths = match (all, n <= EVERY) {
            (false, _) => some[..1 + self.random.below(some.len())].to_vec(),
            (true, false) => (0..n / 73).flat_map(|k| [73 * k, 73 * k + 1, 73 * k + 72]).chain(some).collect(),
            (true, true) => (0..n + 2).collect(),
        };
        lengths.iter().map(|lent| self.call(switches, image, fault, page, *lent)).collect()
    }

    fn call(&mut self, switches: Switches, image: &[u8], fault: u8, page: &[u8], lent: usize) -> String {
        self.calls += 1;
        let before = self.random.next();
        let mut written = before;
        let memory = self.memory.lend(lent, &mut self.random, |n| (n >> 32) as u8);
        let answer = ours::page(switches, image, memory, &mut written);
        let want = if fault == 0 && lent < page.len() { 16 } else { fault };
        self.refused += (want == 16) as usize;
        let (shown, said) = if want == 0 { (page, page.len() as u64) } else { (&[][..], before) };
        let mut found = self.memory.difference("page", shown);
        if answer != want as u32 {
            found += &format!("page answers {answer}, not {want}; ");
        }
        if written != said {
            found += &format!("written {written}, not {said}; ");
        }
        if !found.is_empty() {
            found += &format!("with {lent} bytes of a page of {} lent; ", page.len());
        }
        found
    }

    pub fn print(&self) {
        println!("  {} lines of pages: {} calls of ownership_page, {} with 16 and nothing changed", self.lines, self.calls, self.refused);
    }
}
