//! Every image through the static library and the Rust. Body, errors and warnings must be the Rust's; left-behind entries and faults the
//! bench's; what is lent must be as it was past what is reported, and all of it on a fault. Each list of errors goes on to reports.rs.
use crate::answer::{self, Answer, LENT_BYTES, LENT_ENTRIES, Outcome};
use crate::image::{self, Image};
use crate::ours::{self, Lent, Report, Switches};
use crate::page::{self, Pages};
use crate::random::Random;
use crate::reports::Reports;
use crate::{boundaries, compare, corners, generator, reader, rules};
use std::time::Instant;

/// One image of so many is also lent memory that it fills exactly, and one too little of each kind.
const SHARE: usize = 4;
/// What stands before and after the memory lent.
const GUARD: usize = 32;

/// The numbers that the entry must answer.
struct Expected {
    fault: u8,
    /// some block counts too many statements: fault 15 whatever is lent
    uncountable: bool,
    output: Vec<u8>,
    errors: Vec<u32>,
    /// the errors as records
    reports: Vec<Report>,
    warnings: Vec<u32>,
    left: Vec<u32>,
    totals: [u64; 4],
    page: Vec<u8>,
    /// the least and the most that the room may be
    room: (usize, usize),
}

/// How many bytes, numbers of errors, of warnings and of left-behind entries.
type Sizes = [usize; 4];

impl Expected {
    fn refused(fault: u8) -> Self {
        let (output, errors, reports, warnings, left) = (vec![], vec![], vec![], vec![], vec![]);
        Expected { fault, uncountable: false, output, errors, reports, warnings, left, totals: [0; 4], page: vec![], room: (0, 0) }
    }

    fn accepted(a: Answer, most: usize) -> Self {
        let mut errors = vec![];
        for e in &a.errors {
            errors.extend([e.kind, e.place, e.hint, e.others.len() as u32]);
            errors.extend(&e.others);
            errors.resize(errors.len().next_multiple_of(12), 0);
        }
        Expected {
            fault: 0,
            uncountable: !a.counts_fit,
            totals: [a.output.len(), a.errors.len(), a.warnings.len(), a.lefts.len()].map(|n| n as u64),
            room: (a.output.len(), most),
            page: page::of(&a),
            output: a.output,
            errors,
            reports: a.errors.iter().map(Report::of).collect(),
            warnings: a.warnings.iter().flat_map(|w| [w.0, w.1 as u32]).collect(),
            left: a.lefts.iter().flat_map(|l| [l.0, l.1 as u32, l.2]).collect(),
        }
    }

    fn sizes(&self) -> Sizes {
        [self.output.len(), self.errors.len(), self.warnings.len(), self.left.len()]
    }

    /// The fault with so much lent: the lists come before the output.
    fn fault_with(&self, lent: Sizes) -> u8 {
        let needed = self.sizes();
        match self.fault {
            0 if (1..4).any(|k| needed[k] > lent[k]) => 14,
            0 if needed[0] > lent[0] || self.uncountable => 15,
            fault => fault,
        }
    }
}

/// Memory with a pattern, of which a part is lent.
pub struct Memory<T> {
    cells: Vec<T>,
    pattern: Vec<T>,
    start: usize,
    from: usize,
}

impl<T: Copy + Eq + std::fmt::Debug> Memory<T> {
    pub fn new() -> Self {
        Memory { cells: vec![], pattern: vec![], start: 0, from: 0 }
    }

    /// So many cells with the pattern, from some place of it, at some alignment.
    pub fn lend(&mut self, size: usize, random: &mut Random, number: fn(u64) -> T) -> &mut [T] {
        (self.start, self.from) = (GUARD + random.below(16), random.below(256));
        let all = self.start + size + GUARD;
        while self.pattern.len() < all + 256 {
            self.pattern.push(number(random.next()));
        }
        self.cells.clear();
        self.cells.extend_from_slice(&self.pattern[self.from..self.from + all]);
        &mut self.cells[self.start..self.start + size]
    }

    /// The cells lent, of which there are so many.
    pub fn lent(&self, size: usize) -> &[T] {
        &self.cells[self.start..self.start + size]
    }

    /// Empty if the first cells lent are these and no other was changed; else where the first difference is.
    pub fn difference(&self, what: &str, first: &[T]) -> String {
        let (end, before) = (self.start + first.len(), &self.cells[..self.start]);
        let (head, tail) = (&self.cells[self.start..end.min(self.cells.len())], &self.cells[end.min(self.cells.len())..]);
        let same = before == &self.pattern[self.from..self.from + self.start]
            && head == first
            && *tail == self.pattern[self.from + end..self.from + self.cells.len()];
        if same {
            return String::new();
        }
        let want = |i: usize| if self.start <= i && i < end { first[i - self.start] } else { self.pattern[self.from + i] };
        let at = (0..self.cells.len()).find(|i| self.cells[*i] != want(*i)).unwrap();
        let place = at as isize - self.start as isize;
        format!("{what}[{place}] is {:?}, not {:?} ({} reported); ", self.cells[at], want(at), first.len())
    }
}

/// A run, and what it counts.
pub struct Differ {
    /// the entries that are called
    switches: Switches,
    random: Random,
    output: Memory<u8>,
    lists: [Memory<u32>; 3],
    reports: Reports,
    pages: Pages,
    images: usize,
    bytes: usize,
    accepted: usize,
    refused: usize,
    /// accepted images beyond the domain of the Rust, beside the definitions alone
    outside: usize,
    calls: usize,
    exact: usize,
    short: usize,
    /// entries of what is left behind
    left: usize,
}

impl Differ {
    fn new(seed: u64) -> Self {
        let lists = [Memory::new(), Memory::new(), Memory::new()];
        let random = Random::new(seed ^ 0x5eed);
        let (output, reports, pages) = (Memory::new(), Reports::new(seed), Pages::new(seed));
        Differ {
            switches: None,
            random,
            output,
            lists,
            reports,
            pages,
            images: 0,
            bytes: 0,
            accepted: 0,
            refused: 0,
            outside: 0,
            calls: 0,
            exact: 0,
            short: 0,
            left: 0,
        }
    }

    /// What differs, if anything does; `all`: with each way of lending too little, and exactly enough.
    fn check(&mut self, bytes: &[u8], all: bool) -> Result<(), String> {
        self.images += 1;
        self.bytes += bytes.len();
        let expected = self.expected(bytes);
        self.left += expected.left.len() / 3;
        self.room(bytes, &expected)?;
        match self.pages.check(self.switches, bytes, expected.fault, &expected.page, all) {
            found if !found.is_empty() => return Err(found),
            _ => {}
        }
        let slack = self.slack(&expected);
        let fault = self.call(bytes, &expected, slack)?;
        self.accepted += (fault == 0) as usize;
        self.refused += (fault != 0) as usize;
        if expected.fault == 0 && (all || self.random.below(SHARE) == 0) {
            self.exactly(bytes, &expected)?;
        }
        Ok(())
    }

    fn expected(&mut self, bytes: &[u8]) -> Expected {
        if self.switches.is_some_and(|w| w > 15) {
            return Expected::refused(17);
        }
        let tree = match reader::read(bytes) {
            Err(fault) => return Expected::refused(fault),
            Ok(tree) => tree,
        };
        match self.outcome(&tree) {
            Err(fault) => Expected::refused(fault),
            Ok(a) => Expected::accepted(a, bytes.len() + compare::room_bound(&tree)),
        }
    }

    fn outcome(&mut self, tree: &Image) -> Outcome {
        if answer::in_domain(tree) {
            return answer::of_switched(tree, self.switches.unwrap_or(0));
        }
        self.outside += 1;
        rules::of_switched(tree, self.switches.unwrap_or(0))
    }

    // What the program lends, or more than is needed; of a refused image anything, also nothing.
    fn slack(&mut self, expected: &Expected) -> Sizes {
        let [bytes, errors, warnings, left] = expected.sizes();
        let random = &mut self.random;
        match random.below(8) {
            0 => [LENT_BYTES, 12 * LENT_ENTRIES, 2 * LENT_ENTRIES, 3 * LENT_ENTRIES],
            1 => [bytes, errors + random.below(40), warnings, left + random.below(40)],
            2 => [bytes + random.below(300), errors, warnings + random.below(40), left],
            _ => [bytes + random.below(300), errors + random.below(40), warnings + random.below(40), left + random.below(40)],
        }
    }

    fn exactly(&mut self, bytes: &[u8], expected: &Expected) -> Result<(), String> {
        let sizes = expected.sizes();
        self.call(bytes, expected, sizes)?;
        self.exact += 1;
        for k in (0..4).filter(|k| sizes[*k] > 0) {
            let mut lent = sizes;
            lent[k] -= 1;
            self.call(bytes, expected, lent)?;
            // with more of the others, and too little of this by more than one
            let mut lent = sizes.map(|n| n + self.random.below(24));
            lent[k] = self.random.below(sizes[k]);
            self.call(bytes, expected, lent)?;
            self.short += 2;
        }
        Ok(())
    }

    /// One call of the pass with so much lent.
    fn call(&mut self, bytes: &[u8], expected: &Expected, lent: Sizes) -> Result<u8, String> {
        self.calls += 1;
        let word = |n: u64| (n >> 32) as u32;
        let before = [0; 4].map(|_: u64| self.random.next());
        let mut totals = before;
        let [errors, warnings, left] = &mut self.lists;
        let memory = Lent {
            output: self.output.lend(lent[0], &mut self.random, |n| (n >> 32) as u8),
            errors: errors.lend(lent[1], &mut self.random, word),
            warnings: warnings.lend(lent[2], &mut self.random, word),
            left: left.lend(lent[3], &mut self.random, word),
            totals: &mut totals,
        };
        let answer = ours::pass(self.switches, bytes, memory);
        let fault = expected.fault_with(lent);
        let none = Expected::refused(fault);
        let (want, said) = if fault == 0 { (expected, expected.totals) } else { (&none, before) };
        let mut found = String::new();
        if answer != fault as u32 {
            found += &format!("pass answers {answer}, not {fault}; ");
        }
        if totals != said {
            found += &format!("totals {totals:?}, not {said:?} (before {before:?}); ");
        }
        found += &self.output.difference("output", &want.output);
        for (what, memory, want) in
            [("errors", &self.lists[0], &want.errors), ("warnings", &self.lists[1], &want.warnings), ("left", &self.lists[2], &want.left)]
        {
            found += &memory.difference(what, want);
        }
        if ours::REPORTS && fault == 0 && found.is_empty() {
            let errors = &self.lists[0];
            found += &self.reports.check(errors.lent(lent[1]), &want.reports);
            found += &errors.difference("errors after ownership_reports", &want.errors);
        }
        if found.is_empty() { Ok(fault) } else { Err(format!("{found}with {lent:?} lent")) }
    }

    fn room(&mut self, bytes: &[u8], expected: &Expected) -> Result<(), String> {
        let before = self.random.next();
        let mut room = before;
        let answer = ours::room(self.switches, bytes, &mut room);
        let (least, most) = expected.room;
        if answer != expected.fault as u32 {
            return Err(format!("room answers {answer}, not {}", expected.fault));
        }
        match answer {
            0 if room < least as u64 || room > most as u64 => Err(format!("room {room}, not from {least} to {most}")),
            1.. if room != before => Err(format!("room changed from {before} to {room} on a refusal")),
            _ => Ok(()),
        }
    }
}

/// 0 if nothing differs; at the first difference 1, and the image.
pub fn differ(images: u64, damaged: u64, seed: u64) -> i32 {
    let start = Instant::now();
    let mut differ = Differ::new(seed);
    let mut random = Random::new(seed);
    for (label, bytes) in by_hand() {
        if !differ.step(&label, &bytes, true) {
            return 1;
        }
    }
    for i in 0..images.max(damaged) {
        let whole = image::write(&generator::short(seed + i)).bytes;
        let jumping = image::write(&generator::jumping(seed + i)).bytes;
        let same = i >= images
            || differ.step(&format!("seed {}", seed + i), &whole, false) && differ.step(&format!("jumping {}", seed + i), &jumping, false);
        let label = format!("damaged {}", seed + i);
        if !same || (i < damaged && !differ.step(&label, &generator::damaged(&whole, &mut random), false)) {
            return 1;
        }
        if (i + 1) % 250_000 == 0 {
            println!("  {} images after {:.0} s", differ.images, start.elapsed().as_secs_f64());
        }
    }
    differ.print(start.elapsed().as_secs_f64());
    0
}

/// The same under every setting of the switches, each image under all of them, and under values above 15. Images made by hand are lent
/// every length of a page under all settings in long runs, in short ones under one that differs from image to image.
pub fn switched(images: u64, seed: u64) -> i32 {
    let start = Instant::now();
    let mut differ = Differ::new(seed);
    let mut random = Random::new(seed);
    for (label, bytes) in by_hand() {
        let lengths = if bytes.len() >= 2000 {
            Lengths::Few
        } else if images < 1000 {
            Lengths::Once
        } else {
            Lengths::All
        };
        if !differ.settings(&label, &bytes, lengths) {
            return 1;
        }
    }
    for i in 0..images {
        let whole = image::write(&generator::short(seed + i)).bytes;
        let jumping = image::write(&generator::jumping(seed + i)).bytes;
        let damaged = generator::damaged(&whole, &mut random);
        let labelled = [("seed", &whole), ("jumping", &jumping), ("damaged", &damaged)];
        if !labelled[..if i % 8 == 0 { 3 } else { 2 }]
            .iter()
            .all(|(label, bytes)| differ.settings(&format!("{label} {}", seed + i), bytes, Lengths::Few))
        {
            return 1;
        }
        if (i + 1) % 25_000 == 0 {
            println!("  {} images after {:.0} s", differ.images, start.elapsed().as_secs_f64());
        }
    }
    differ.print(start.elapsed().as_secs_f64());
    0
}

// Corners, boundaries, and the stored images of crates/programs_faults.
fn by_hand() -> Vec<(String, Vec<u8>)> {
    let rows = corners::rows().into_iter().map(|r| (r.label.to_string(), r.image));
    let trees = rows.chain([("example".to_string(), corners::example())]).chain(corners::others());
    let trees = trees.chain(boundaries::all()).chain(boundaries::own_memory()).chain(boundaries::deepest());
    let trees = trees.chain(boundaries::many_entries()).chain([boundaries::uncountable()]);
    trees.map(|(label, tree)| (label, image::write(&tree).bytes)).chain(crate::fault_records()).collect()
}

/// Under which settings an image is lent memory of all lengths.
#[derive(Clone, Copy, PartialEq)]
enum Lengths {
    Few,
    Once,
    All,
}

impl Differ {
    fn settings(&mut self, label: &str, bytes: &[u8], lengths: Lengths) -> bool {
        let above = [16, 17, 31, 1 << 31, u32::MAX][self.random.below(5)];
        let once = self.random.below(16) as u32;
        (0..16).chain([above]).all(|w| {
            self.switches = Some(w);
            let all = lengths == Lengths::All || lengths == Lengths::Once && w == once;
            self.step(&format!("{label} under {w}"), bytes, all)
        })
    }

    fn step(&mut self, label: &str, bytes: &[u8], all: bool) -> bool {
        let Err(found) = self.check(bytes, all) else { return true };
        let hex: String = bytes.iter().map(|b| format!("{b:02x}")).collect();
        println!("DIFFERENT {label}, {} bytes: {hex}\n  {found}", bytes.len());
        false
    }

    fn print(&self, seconds: f64) {
        println!(
            "  {:.0} bytes an image; {:.0} images a second; {} calls of pass; {} left-behind entries",
            self.bytes as f64 / self.images as f64,
            self.images as f64 / seconds,
            self.calls,
            self.left
        );
        self.reports.print();
        self.pages.print();
        println!(
            "{} images, 0 differences: {} accepted, {} refused, {} outside the Rust's domain; {} calls that fit exactly, {} with one kind short",
            self.images, self.accepted, self.refused, self.outside, self.exact, self.short
        );
    }
}
