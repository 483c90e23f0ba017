//! One image through everything: what must agree, and what was seen.
use crate::adapter::{self, Marks, Numbers, Submitted, ToHir, ToImage};
use crate::answer::{self, Answer, Error, Outcome};
use crate::image::{self, Block, Image, Stmt};
use crate::{reader, rules};
use oracle::atlas_c::atlas_hir::arena::HirArena;
use std::ops::Range;

/// What the images of a run had.
#[derive(Default)]
pub struct Seen {
    pub images: usize,
    pub bytes: usize,
    pub outside: usize,
    pub faults: [usize; 16],
    pub errors: [usize; 9],
    pub hints: [usize; 4],
    pub warnings: usize,
    pub lefts: usize,
    pub changed: usize,
    pub most_places: usize,
    /// answers under switches, and those that are not the one with all off
    pub switched: usize,
    pub other: usize,
    /// differences: what, the image
    pub different: Vec<(String, Vec<u8>)>,
}

impl Seen {
    /// The outcome of bytes with all switches off, after every comparison, under these switches too; None outside the domain.
    pub fn check(&mut self, label: &str, bytes: &[u8], settings: Range<u32>) -> Option<Outcome> {
        self.images += 1;
        self.bytes += bytes.len();
        let once = self.images % 8 != 0;
        let mut must = |what: &str, holds: bool| {
            if !holds {
                self.different.push((format!("{label}: {what}"), bytes.to_vec()));
            }
        };
        let tree = match reader::read(bytes) {
            Ok(tree) => tree,
            Err(fault) => {
                self.faults[fault as usize] += 1;
                return Some(Err(fault));
            }
        };
        must("read and written again", image::write(&tree).bytes == bytes);
        if !answer::in_domain(&tree) {
            self.outside += 1;
            return None;
        }
        must("image to HIR to image", round_trip(&tree) == bytes);
        let rust = answer::of_image(&tree);
        // its maps are hashed anew each time; now and then it is asked twice
        must("the Rust twice", once || answer::of_image(&tree) == rust);
        must("the definitions and the Rust", rules::of_image(&tree) == rust);
        if let Ok(a) = &rust {
            must("the compiler's way", compiler_way(&tree, a));
            must("the room's bound", a.output.len() <= bytes.len() + room_bound(&tree));
            must("the returned image is read", returned_is_read(a));
        }
        settings.for_each(|w| self.under(w, label, &tree, &rust, bytes));
        self.note(bytes, &rust);
        Some(rust)
    }

    // The same comparison under switches, and with the outcome that has all off.
    fn under(&mut self, switches: u32, label: &str, tree: &Image, off: &Outcome, bytes: &[u8]) {
        let outcome = answer::of_switched(tree, switches);
        self.switched += 1;
        self.other += (outcome != *off) as usize;
        let same = rules::of_switched(tree, switches) == outcome;
        for (what, holds) in [("the definitions and the Rust", same), ("what these may change", may_be(&outcome, off, switches))] {
            if !holds {
                self.different.push((format!("{label} under {switches}: {what}"), bytes.to_vec()));
            }
        }
    }

    fn note(&mut self, bytes: &[u8], outcome: &Outcome) {
        let a = match outcome {
            Err(fault) => return self.faults[*fault as usize] += 1,
            Ok(a) => a,
        };
        self.faults[answer::lent_fault(a, answer::LENT_BYTES, answer::LENT_ENTRIES) as usize] += 1;
        for e in &a.errors {
            self.errors[e.kind as usize] += 1;
            self.hints[e.hint as usize] += 1;
            self.most_places = self.most_places.max(e.others.len());
        }
        self.warnings += a.warnings.len();
        self.lefts += a.lefts.len();
        self.changed += (a.output != bytes) as usize;
    }

    pub fn print(&self, what: &str) {
        println!("{what}: {} images, {} bytes, {} outside the domain", self.images, self.bytes, self.outside);
        println!("  accepted {}, bodies with insertions {}; refused by fault: {}", self.faults[0], self.changed, numbered(&self.faults));
        println!(
            "  errors by kind: {}; bad moves by hint: {}; most places {}",
            numbered(&self.errors),
            numbered(&self.hints),
            self.most_places
        );
        println!(
            "  warnings {}, left behind {}; under switches {}, {} of them other answers",
            self.warnings, self.lefts, self.switched, self.other
        );
        println!("  differences {}", self.different.len());
        let mut smallest: Vec<_> = self.different.iter().collect();
        smallest.sort_by_key(|d| d.1.len());
        for (label, bytes) in smallest.iter().take(5) {
            let hex: String = bytes.iter().map(|b| format!("{b:02x}")).collect();
            println!("  DIFFERENT {label}: {hex}");
        }
    }
}

// "number: how many" of those above 0
fn numbered(list: &[usize]) -> String {
    let shown: Vec<_> = list.iter().enumerate().skip(1).filter(|(_, n)| **n > 0).map(|(i, n)| format!("{i}: {n}")).collect();
    shown.join(", ")
}

/// Beside the outcome with all off: the same fault, or the same warnings, and the same errors but for kinds 1 to 3, which under switch 3 may
/// become 4 to 6. Without switches 1, 2 and 4 the body is the same too, and what 1 or 2 drops is not listed.
fn may_be(outcome: &Outcome, off: &Outcome, switches: u32) -> bool {
    let (a, off) = match (outcome, off) {
        (Ok(a), Ok(off)) => (a, off),
        _ => return outcome == off,
    };
    let kind = |a: u32, off: u32| a == off || switches & 4 != 0 && (1..=3).contains(&off) && a == off + 3;
    let error = |a: &Error, off: &Error| kind(a.kind, off.kind) && (a.place, a.hint, &a.others) == (off.place, off.hint, &off.others);
    a.warnings == off.warnings
        && a.errors.len() == off.errors.len()
        && a.errors.iter().zip(&off.errors).all(|(a, off)| error(a, off))
        && (switches & 11 != 0 || a.output == off.output)
        && (switches & 3 != 0 || a.lefts == off.lefts)
        && (switches & 3 != 3 || a.lefts.is_empty())
}

fn round_trip(tree: &Image) -> Vec<u8> {
    let names = answer::texts(tree);
    let arena = HirArena::new();
    let mut numbers = Numbers::of(tree, &names, &arena);
    let hir = ToHir { numbers: &numbers, marks: Marks::default() }.block(&tree.body);
    image::write_with(tree, &ToImage { numbers: &mut numbers }.block(&hir)).bytes
}

/// The way of the compiler: HIR, an image with numbers of its own, its answer, and HIR again. Told in the numbers of the first image the
/// answer must be the same, but for the places in the image that its warnings name.
fn compiler_way(tree: &Image, rust: &Answer) -> bool {
    let names = answer::texts(tree);
    let arena = HirArena::new();
    let mut numbers = Numbers::of(tree, &names, &arena);
    let signature = adapter::signature(tree, &numbers, &arena);
    let params = adapter::params(tree, &numbers);
    let body = ToHir { numbers: &numbers, marks: Marks::default() }.block(&tree.body);
    let submitted =
        Submitted { signature: &signature, receiver: tree.entry.receiver, this: numbers.ty(tree.entry.this), params: &params, body: &body };

    let mut own = Numbers::new(numbers.ty(0));
    let image = ToImage { numbers: &mut own }.image(&submitted);
    let Ok(read) = reader::read(&image::write(&image).bytes) else { return false };
    let Ok(answer) = answer::of_image(&read) else { return false };

    let mut back = |span| numbers.span_number(own.span(span));
    let errors: Vec<_> = answer
        .errors
        .into_iter()
        .map(|e| Error { place: back(e.place), others: e.others.into_iter().map(&mut back).collect(), ..e })
        .collect();
    let warned: Vec<_> = answer.warnings.iter().map(|w| back(w.0)).collect();
    let lefts: Vec<_> = answer.lefts.iter().map(|l| (back(l.0), l.1, if l.2 == 0 { 0 } else { back(l.2) })).collect();
    let lefts: Vec<_> = lefts.into_iter().map(|l| (l.0, numbers.name_number(own.name(l.1)), l.2)).collect();
    let same_reports = errors == rust.errors && lefts == rust.lefts && warned == rust.warnings.iter().map(|w| w.0).collect::<Vec<_>>();
    // an output that is no image can't be read
    let Ok(returned) = reader::read(&answer.output) else { return same_reports };
    let body = ToHir { numbers: &own, marks: Marks::default() }.block(&returned.body);
    let output = image::write_with(tree, &ToImage { numbers: &mut numbers }.block(&body));
    same_reports && output.bytes == rust.output
}

// The returned image is an image, but for its length, its counts, and the depth of a call 24 deep that was wrapped.
fn returned_is_read(a: &Answer) -> bool {
    let long = a.output.len() > 65_536;
    match reader::read(&a.output) {
        Ok(_) => !long && a.counts_fit,
        Err(fault) => (fault == 1 && long) || !a.counts_fit || (fault == 9 && !a.warnings.is_empty()),
    }
}

/// 21 × (statements in all blocks + 1) × (registrations + 1)
pub fn room_bound(tree: &Image) -> usize {
    let (mut statements, mut registrations) = (0, tree.entry.params.len() + (tree.entry.receiver >= 2) as usize);
    count(&tree.body, &mut statements, &mut registrations);
    21 * (statements + 1) * (registrations + 1)
}

fn count(block: &Block, statements: &mut usize, registrations: &mut usize) {
    for s in &block.statements {
        *statements += 1;
        match s {
            Stmt::Variable { .. } => *registrations += 1,
            Stmt::Block(b) | Stmt::While { body: b, .. } => count(b, statements, registrations),
            Stmt::IfElse { then, other, .. } => {
                count(then, statements, registrations);
                other.iter().for_each(|b| count(b, statements, registrations));
            }
            _ => {}
        }
    }
}
