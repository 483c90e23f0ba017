//! What the Rust answers for an image, in document 01's numbers.
use crate::adapter::{self, Marks, Numbers, ToHir, ToImage, made_up_number as span_number, mark_of};
use crate::image::{self, Image, Name, SpanNo, Ty};
use crate::reader;
use oracle::atlas_c::atlas_hir::arena::HirArena;
use oracle::atlas_c::atlas_hir::error::HirError;
use oracle::atlas_c::atlas_hir::expr::HirExpr;
use oracle::atlas_c::atlas_hir::ownership_pass::HirOwnershipPass;
use oracle::atlas_c::atlas_hir::stmt::{HirBlock, HirStatement};
use oracle::atlas_c::atlas_hir::warning::HirWarning;
use oracle::atlas_c::utils::Span;
use oracle::{ownership_probe, probe};

#[derive(Debug, Clone, PartialEq, Eq)]
pub struct Error {
    pub kind: u32,
    pub place: SpanNo,
    pub hint: u32,
    pub others: Vec<SpanNo>,
}

/// A local's state after the body: 0 Alive, 1 Deleted, 2 Moved, 3 Consumed, 4 to 6 the same under a condition; its places.
pub type State = (u8, Vec<SpanNo>);

/// A left-behind entry: the span of the return, break or continue, the name, the birth.
pub type Left = (SpanNo, Name, SpanNo);

#[derive(Debug, Clone, PartialEq, Eq)]
pub struct Answer {
    pub output: Vec<u8>,
    /// no block counts over 65,535 statements
    pub counts_fit: bool,
    pub errors: Vec<Error>,
    /// the statement's span, where the callee's tag stands
    pub warnings: Vec<(SpanNo, usize)>,
    pub lefts: Vec<Left>,
    /// of the parameters and `this`, newest first
    pub states: Vec<State>,
}

/// The answer, or the fault: 1 to 13.
pub type Outcome = Result<Answer, u8>;

/// What the program lends.
pub const LENT_BYTES: usize = 65_536;
pub const LENT_ENTRIES: usize = 256;

/// Faults 14 and 15, with so many bytes and entries lent.
pub fn lent_fault(a: &Answer, bytes: usize, entries: usize) -> u8 {
    if [a.errors.len(), a.warnings.len(), a.lefts.len()].iter().any(|n| *n > entries) {
        14
    } else if a.output.len() > bytes || !a.counts_fit {
        15
    } else {
        0
    }
}

/// Document 01's domain: beyond it the Rust has nothing to compare with.
pub fn in_domain(image: &Image) -> bool {
    let shaped = |t: &Ty| match t {
        Ty::Generic(name, shape) if *shape != 0 => Some((*shape, *name)),
        _ => None,
    };
    let shapes: Vec<_> = image.types.iter().filter_map(shaped).collect();
    let named = |t: u16| matches!(image.types[t as usize], Ty::Named(_));
    let this = match image.entry.receiver {
        2 | 3 => matches!(image.types[image.entry.this as usize], Ty::Pointer(inner) if named(inner)),
        4 => named(image.entry.this),
        _ => true,
    };
    this && image.names.iter().all(|n| std::str::from_utf8(n).is_ok())
        && shapes.iter().all(|a| shapes.iter().all(|b| a.0 != b.0 || a.1 == b.1))
}

/// The Rust's answer for bytes: faults 1 to 11 by the second reader, the rest by the pass. None outside the domain.
pub fn of_bytes(bytes: &[u8]) -> Option<Outcome> {
    match reader::read(bytes) {
        Err(fault) => Some(Err(fault)),
        Ok(image) => in_domain(&image).then(|| of_image(&image)),
    }
}

pub fn texts(image: &Image) -> Vec<String> {
    image.names.iter().map(|n| String::from_utf8(n.clone()).unwrap()).collect()
}

/// Of an image within the domain that was read from bytes.
pub fn of_image(image: &Image) -> Outcome {
    of_switched(image, 0)
}

/// The same under switches: with all off the published pass, else its copy with the drops of document 02, (e).
pub fn of_switched(image: &Image, switches: u32) -> Outcome {
    let names = texts(image);
    let arena = HirArena::new();
    let mut numbers = Numbers::of(image, &names, &arena);
    let setting = Setting { image, numbers: &numbers, arena: &arena };

    let mut marking = ToHir { numbers: &numbers, marks: Marks { on: true, ..Marks::default() } };
    let Probed { fault, states, body: marked, errors: again, warnings: marks } = setting.probe(&mut marking);
    if fault != 0 {
        return Err(fault);
    }
    let mut plain = ToHir { numbers: &numbers, marks: Marks::default() };
    let (body, errors, spans, states) = if switches == 0 {
        let (body, errors, spans) = setting.run(&mut plain);
        assert_eq!(errors, again, "marks change no error");
        (body, errors, spans, states)
    } else {
        probe::switch(Some(switches));
        let run = setting.probe(&mut plain);
        probe::switch(None);
        assert_eq!(run.fault, 0, "switches change no fault");
        (run.body, run.errors, run.warnings, run.states)
    };
    let marked_at = |span: &Span| marking.marks.marked[mark_of(*span).expect("a submitted statement")];
    let warnings: Vec<_> = marks.iter().map(|m| (marked_at(m).span, marked_at(m).callee.expect("a call"))).collect();
    let warned: Vec<_> = spans.iter().map(|s| span_number(*s)).collect();
    assert_eq!(warned, warnings.iter().map(|w| w.0).collect::<Vec<_>>(), "marks change no warning");
    let marks = marking.marks;
    let mut lefts = vec![];
    left_behind(&marked, &marks, switches, &mut numbers, &mut lefts);
    let written = image::write_with(image, &ToImage { numbers: &mut numbers }.block(&body));

    Ok(Answer { output: written.bytes, counts_fit: written.counts_fit, errors, warnings, lefts, states })
}

pub struct Setting<'a, 'hir> {
    pub image: &'a Image,
    pub numbers: &'a Numbers<'hir>,
    pub arena: &'hir HirArena<'hir>,
}

// One of the two private functions, by the entry's receiver byte. The arena answers a const or mutable method's `this` with the
// entry's type, so the struct's own type plays no part there.
macro_rules! run_pass {
    ($pass:expr, $setting:expr, $body:expr) => {{
        let (entry, params) = (&$setting.image.entry, adapter::params($setting.image, $setting.numbers));
        if entry.receiver == 0 {
            $pass.body($body, &params);
        } else {
            let this = $setting.numbers.ty(entry.this);
            $setting.arena.types().this_pointer.set(Some(this));
            $pass.method_body($body, &params, adapter::modifier(entry.receiver - 1), this);
        }
    }};
}

impl<'hir> Setting<'_, 'hir> {
    /// The published pass: the body it gives back, its errors, and the spans of its warnings.
    pub fn run(&self, to_hir: &mut ToHir<'_, 'hir>) -> (HirBlock<'hir>, Vec<Error>, Vec<Span>) {
        let signature = adapter::signature(self.image, self.numbers, self.arena);
        let mut body = to_hir.block(&self.image.body);
        let mut pass = HirOwnershipPass::new(self.arena, &signature);
        run_pass!(pass, self, &mut body);
        let errors = pass.errors().iter().filter_map(error_of).collect();
        (body, errors, pass.warnings.iter().map(warned_span).collect())
    }

    /// The copy of mod.rs with probes: faults 12 and 13 and the states after the body too.
    fn probe(&self, to_hir: &mut ToHir<'_, 'hir>) -> Probed<'hir> {
        let signature = adapter::signature(self.image, self.numbers, self.arena);
        let mut body = to_hir.block(&self.image.body);
        let mut pass = ownership_probe::HirOwnershipPass::new(self.arena, &signature);
        run_pass!(pass, self, &mut body);
        let (fault, states) = probe::taken();
        let states = states.into_iter().map(|(_, kind, places)| (kind, places.into_iter().map(span_number).collect())).collect();
        let errors = pass.errors().iter().filter_map(error_of).collect();
        Probed { fault, states, body, errors, warnings: pass.warnings.iter().map(warned_span).collect() }
    }
}

struct Probed<'hir> {
    fault: u8,
    states: Vec<State>,
    body: HirBlock<'hir>,
    errors: Vec<Error>,
    warnings: Vec<Span>,
}

fn warned_span(w: &HirWarning) -> Span {
    match w {
        HirWarning::UnusedResultFromFunction(w) => w.span,
        other => panic!("{other:?}"),
    }
}

/// An error in document 01's numbers; TypeIsNotTriviallyCopyable is struck out.
fn error_of(e: &HirError) -> Option<Error> {
    let use_of = |kind, place: Span, others: &[Span]| {
        Some(Error { kind, place: span_number(place), hint: 0, others: others.iter().map(|s| span_number(*s)).collect() })
    };
    match e {
        HirError::TypeIsNotTriviallyCopyable(_) => None,
        HirError::TryingToAccessADeletedValue(e) => use_of(1, e.access_span, &[e.delete_span]),
        HirError::TryingToAccessAMovedValue(e) => use_of(2, e.access_span, &[e.move_span]),
        HirError::TryingToAccessAConsumedValue(e) => use_of(3, e.access_span, &e.consume_spans),
        HirError::TryingToAccessAPotentiallyDeletedValue(e) => use_of(4, e.access_span, &[e.delete_span]),
        HirError::TryingToAccessAPotentiallyMovedValue(e) => use_of(5, e.access_span, &[e.move_span]),
        HirError::TryingToAccessAPotentiallyConsumedValue(e) => use_of(6, e.access_span, &e.consume_spans),
        HirError::CannotMoveFromRvalue(e) => Some(Error { kind: 7, place: span_number(e.span), hint: hint_of(&e.hint), others: vec![] }),
        HirError::CannotMoveGlobalConstants(e) => use_of(8, e.moved_span, &[e.definition_span]),
        other => panic!("{other:?}"),
    }
}

fn hint_of(text: &str) -> u32 {
    match text {
        "`std::move` only accepts local variables; assign the expression to a local first" => 1,
        "`std::move` only accepts local variables" => 2,
        "`std::move` cannot be used with compiler temporaries (`__tmpN`); move from a named local variable" => 3,
        _ => panic!("{text}"),
    }
}

// In a body with marks, what stands before a return that was bare, a break or a continue and has no mark was inserted there: all deletes of
// locals. What the switches drop is not listed.
fn left_behind<'hir>(block: &HirBlock<'hir>, marks: &Marks, switches: u32, numbers: &mut Numbers<'hir>, lefts: &mut Vec<Left>) {
    let mut inserted = vec![];
    for s in &block.statements {
        if s.span() == Span::default() {
            inserted.push(deleted_local(s, marks, numbers));
            continue;
        }
        match s {
            HirStatement::Block(inner) => left_behind(inner, marks, switches, numbers, lefts),
            HirStatement::IfElse(i) => {
                left_behind(&i.then_branch, marks, switches, numbers, lefts);
                i.else_branch.iter().for_each(|b| left_behind(b, marks, switches, numbers, lefts));
            }
            HirStatement::While(w) => left_behind(&w.body, marks, switches, numbers, lefts),
            HirStatement::Return(r) => {
                let marked = marks.marked[mark_of(r.span).expect("a submitted statement")];
                if marked.bare_return && switches & 1 == 0 {
                    lefts.extend(inserted.iter().map(|(name, born)| (marked.span, *name, *born)));
                }
            }
            HirStatement::Break(span) | HirStatement::Continue(span) if switches & 2 == 0 => {
                let marked = marks.marked[mark_of(*span).expect("a submitted statement")];
                lefts.extend(inserted.iter().map(|(name, born)| (marked.span, *name, *born)));
            }
            _ => {}
        }
        inserted.clear();
    }
}

// The name and the birth: the span of the Let or Const, by its mark, 0 for a parameter or `this`.
fn deleted_local<'hir>(s: &HirStatement<'hir>, marks: &Marks, numbers: &mut Numbers<'hir>) -> (Name, SpanNo) {
    if let HirStatement::Expr(e) = s
        && let HirExpr::Delete(d) = &e.expr
        && let HirExpr::Ident(id) = &*d.expr
    {
        return (numbers.name_number(id.name), mark_of(id.span).map_or(0, |m| marks.marked[m].span));
    }
    panic!("an inserted statement is the delete of a local")
}
