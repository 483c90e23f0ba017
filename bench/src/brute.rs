//! Demand 3 by brute force: small plain bodies, each as it is returned under the 16 settings of the switches, and all runs of it, every
//! condition both ways and every loop entered with up to two turns. What a run holds is read from the mission, document 01 ("Held, by
//! history") and document 02 (e); the pass's states play no part. Two turns are enough: a way through a loop's body leaves a local as
//! it was, or held, or not held, so what comes to a place in a later turn comes to it in the second.
use crate::answer::Outcome;
use crate::image::{self, Block, Expr, Image, Name, Node, SpanNo, Stmt, TyNo};
use crate::{plain, reader};
use std::collections::BTreeMap;
use std::time::Instant;

/// Bodies with more runs are left out: all of them or none.
const MOST_RUNS: usize = 4000;
const TURNS: usize = 2;

/// What gives a body back under switches.
pub type Pass = fn(&Image, u32) -> Outcome;

/// A block as returned: its statements without the insertions, each with the deletes put in before it, and those put in at its end.
struct Returned {
    span: SpanNo,
    steps: Vec<(Vec<Name>, Step)>,
    end: Vec<Name>,
}

enum Step {
    /// with none but the statement's own expressions
    Simple(Stmt),
    Block(Returned),
    If(Expr, Returned, Option<Returned>),
    While(Expr, Returned),
}

/// A delete put in: all of its nodes have one span, and it is not the next statement submitted.
fn put_in(s: &Stmt) -> Option<Name> {
    let Stmt::Expr { span, expr } = s else { return None };
    let Node::Delete(inner) = &expr.node else { return None };
    let Node::Ident(name) = inner.node else { return None };
    (expr.span == *span && inner.span == *span).then_some(name)
}

fn span_of(s: &Stmt) -> SpanNo {
    match s {
        Stmt::Block(b) => b.span,
        Stmt::Return { span, .. } | Stmt::Expr { span, .. } | Stmt::Variable { span, .. } | Stmt::Assign { span, .. } => *span,
        Stmt::IfElse { span, .. } | Stmt::While { span, .. } | Stmt::Break(span) | Stmt::Continue(span) => *span,
    }
}

/// The returned block beside the submitted one, whose statements all have spans of their own. Where deletes may stand: at a block's end,
/// before an assignment or a return, before a bare return under switch 1 only.
fn aligned(given: &Block, was: &Block, switches: u32) -> Result<Returned, String> {
    let (mut steps, mut before, mut submitted) = (vec![], vec![], was.statements.iter());
    let mut next = submitted.next();
    for s in &given.statements {
        match next {
            Some(own) if span_of(own) == span_of(s) && std::mem::discriminant(own) == std::mem::discriminant(s) => {
                let drops = std::mem::take(&mut before);
                let allowed = matches!(own, Stmt::Assign { .. } | Stmt::Return { value: Some(_), .. })
                    || switches & 1 != 0 && matches!(own, Stmt::Return { value: None, .. });
                if !drops.is_empty() && !allowed {
                    return Err(format!("a delete is put in before the statement at {}", span_of(own)));
                }
                steps.push((drops, step(s, own, switches)?));
                next = submitted.next();
            }
            _ => before.push(put_in(s).ok_or(format!("the statement at {} is no delete put in", span_of(s)))?),
        }
    }
    match next {
        Some(own) => Err(format!("the statement at {} is gone", span_of(own))),
        None => Ok(Returned { span: given.span, steps, end: before }),
    }
}

fn step(given: &Stmt, was: &Stmt, switches: u32) -> Result<Step, String> {
    Ok(match (given, was) {
        (Stmt::Block(g), Stmt::Block(w)) => Step::Block(aligned(g, w, switches)?),
        (Stmt::IfElse { condition, then, other, .. }, Stmt::IfElse { then: t, other: u, .. }) => {
            let other = other.as_ref().zip(u.as_ref()).map(|(g, w)| aligned(g, w, switches)).transpose()?;
            Step::If(condition.clone(), aligned(then, t, switches)?, other)
        }
        (Stmt::While { condition, body, .. }, Stmt::While { body: w, .. }) => Step::While(condition.clone(), aligned(body, w, switches)?),
        // the delete round an unused result is struck out
        (Stmt::Expr { span, expr: g }, Stmt::Expr { expr: w, .. }) => match &g.node {
            Node::Delete(inner) if !matches!(w.node, Node::Delete(_)) => Step::Simple(Stmt::Expr { span: *span, expr: (**inner).clone() }),
            _ => Step::Simple(given.clone()),
        },
        _ => Step::Simple(given.clone()),
    })
}

/// The statements without the insertions, of a submitted block.
fn struck(r: &Returned, was: &Block) -> Block {
    let one = |(step, own): (&(Vec<Name>, Step), &Stmt)| match (&step.1, own) {
        (Step::Simple(s), _) => s.clone(),
        (Step::Block(b), Stmt::Block(w)) => Stmt::Block(struck(b, w)),
        (Step::If(e, t, u), Stmt::IfElse { span, then, other, .. }) => {
            let other = u.as_ref().zip(other.as_ref()).map(|(u, w)| struck(u, w));
            Stmt::IfElse { span: *span, condition: e.clone(), then: struck(t, then), other }
        }
        (Step::While(e, t), Stmt::While { span, body, .. }) => Stmt::While { span: *span, condition: e.clone(), body: struck(t, body) },
        _ => unreachable!("aligned"),
    };
    Block { span: r.span, statements: r.steps.iter().zip(&was.statements).map(one).collect() }
}

// ---- what gives a value up, and what gives one ----

/// A local of a run: where a frame is, by its depth, 0 that of the parameters.
#[derive(Clone)]
pub struct Local {
    pub name: Name,
    pub ty: TyNo,
    pub depth: usize,
    pub held: bool,
}

/// The locals, newest last; of a plain body no two have one name.
pub type Locals = Vec<Local>;

pub fn named(e: &Expr) -> Option<Name> {
    match e.through().node {
        Node::Ident(n) => Some(n),
        Node::This => Some(0),
        _ => None,
    }
}

pub fn local(locals: &Locals, n: Name) -> Option<&Local> {
    locals.iter().find(|l| l.name == n)
}

pub fn hold(locals: &mut Locals, n: Name, held: bool) {
    locals.iter_mut().filter(|l| l.name == n).for_each(|l| l.held = held);
}

fn temporary(i: &Image, n: Name) -> bool {
    i.names[n as usize].starts_with(b"__tmp")
}

/// An expression runs whole.
pub fn expression(i: &Image, e: &Expr, locals: &mut Locals) {
    let passed: &[Expr] = match &e.node {
        Node::Call(_, xs) | Node::Obj(xs) => xs,
        Node::Sized(x) => std::slice::from_ref(x),
        _ => &[],
    };
    children(e).into_iter().for_each(|c| expression(i, c, locals));
    let passed = passed.iter().filter_map(named).filter(|n| temporary(i, *n));
    let own = match &e.node {
        Node::Intrinsic(f, xs) if i.names[*f as usize] == b"std::move" => xs.first().and_then(|x| moved(i, x)),
        Node::Call(f, _) => consumed(i, f),
        _ => None,
    };
    passed.chain(own).for_each(|n| hold(locals, n, false));
}

fn children(e: &Expr) -> Vec<&Expr> {
    match &e.node {
        Node::Ident(_) | Node::This | Node::StaticAccess | Node::Literal => vec![],
        Node::Unary(_, c) | Node::Casting(c) | Node::Sized(c) | Node::Delete(c) | Node::Field(c, _) => vec![c],
        Node::Binary(a, b) | Node::Indexing(a, b) => vec![a, b],
        Node::Call(f, xs) => std::iter::once(&**f).chain(xs).collect(),
        Node::List(xs) | Node::Obj(xs) | Node::Intrinsic(_, xs) => xs.iter().collect(),
    }
}

/// An accepted move's name: no global's, though `this` as such is none, and no temporary's.
fn moved(i: &Image, x: &Expr) -> Option<Name> {
    let global = matches!(x.through().node, Node::Ident(n) if i.globals.iter().any(|g| g.0 == n));
    named(x).filter(|n| !global && !temporary(i, *n))
}

/// The receiver of a consuming call, if it is an Ident: the method is that of the target's type, which may be behind pointers.
fn consumed(i: &Image, callee: &Expr) -> Option<Name> {
    let Node::Field(target, method) = &callee.through().node else { return None };
    let Node::Ident(n) = target.through().node else { return None };
    let mut ty = i.types[target.ty as usize];
    while let image::Ty::Pointer(of) = ty {
        ty = i.types[of as usize];
    }
    let image::Ty::Named(class) = ty else { return None };
    let methods = &i.structs.iter().find(|s| s.name == class)?.methods;
    methods.iter().any(|m| m.0 == *method && m.1 == 3).then_some(n)
}

/// A temporary taken over by a local of its type that is none.
fn taken(i: &Image, n: Name, ty: TyNo, value: &Expr, locals: &Locals) -> Option<Name> {
    named(value).filter(|m| temporary(i, *m) && !temporary(i, n) && local(locals, *m).is_some_and(|l| l.ty == ty))
}

/// A statement of no block, all of it but an assignment's and a return's deletes.
pub fn simple(i: &Image, s: &Stmt, depth: usize, locals: &mut Locals) {
    match s {
        Stmt::Expr { expr, .. } => {
            expression(i, expr, locals);
            if let Node::Delete(of) = &expr.through().node {
                named(of).into_iter().for_each(|n| hold(locals, n, false));
            }
        }
        Stmt::Variable { name, ty, value, .. } => {
            expression(i, value, locals);
            let taken = taken(i, *name, *ty, value, locals);
            locals.push(Local { name: *name, ty: *ty, depth, held: true });
            taken.into_iter().for_each(|m| hold(locals, m, false));
        }
        Stmt::Assign { dst, val, .. } => {
            expression(i, dst, locals);
            expression(i, val, locals);
            assigned(i, dst, val, locals);
        }
        Stmt::Return { value, .. } => value.iter().for_each(|e| expression(i, e, locals)),
        _ => {}
    }
}

fn assigned(i: &Image, dst: &Expr, val: &Expr, locals: &mut Locals) {
    let Some(own) = named(dst).and_then(|n| local(locals, n).cloned()) else { return };
    hold(locals, own.name, true);
    taken(i, own.name, own.ty, val, locals).into_iter().for_each(|m| hold(locals, m, false));
}

pub fn entered(i: &Image) -> Locals {
    let this = (i.entry.receiver >= 2).then_some((0, i.entry.this));
    this.iter().chain(&i.entry.params).map(|(name, ty)| Local { name: *name, ty: *ty, depth: 0, held: true }).collect()
}

/// Has the type a destructor: an inline array that of its elements; a generic type that of its plain name, else of the first of its shape.
fn destructor(i: &Image, ty: TyNo) -> bool {
    let by_name = |n| i.structs.iter().find(|s| s.name == n);
    let of = match i.types[ty as usize] {
        image::Ty::Array(of) => return destructor(i, of),
        image::Ty::Named(n) => by_name(n),
        image::Ty::Generic(n, shape) => by_name(n).or_else(|| i.structs.iter().find(|s| shape != 0 && s.shape == shape)),
        image::Ty::Plain | image::Ty::Pointer(_) => None,
    };
    of.is_some_and(|s| s.destructor)
}

// ---- runs ----

/// A place, whatever the turn: the statement's span, or the block's of which it is the end.
type Place = (bool, SpanNo);

/// What all runs showed of a local at a place: is it deleted there; and the choices of a run that holds it there, and of one that does not.
#[derive(Default)]
struct Shown {
    deleted: bool,
    held: Option<Vec<bool>>,
    lost: Option<Vec<bool>>,
}

struct Runs<'a> {
    image: &'a Image,
    switches: u32,
    choices: Vec<bool>,
    used: usize,
    locals: Locals,
    shown: BTreeMap<(Place, Name), Shown>,
    counts: Counts,
}

#[derive(Default)]
struct Counts {
    runs: usize,
    deletes: usize,
    passed: usize,
}

/// Why a run stops: it returned, or it shows what must not be.
enum Stop {
    Return,
    Wrong(String),
}

impl Runs<'_> {
    /// A condition: the next choice; a new one goes past first.
    fn choose(&mut self) -> bool {
        if self.used == self.choices.len() {
            self.choices.push(false);
        }
        self.used += 1;
        self.choices[self.used - 1]
    }

    /// The run's choices become those of the next run; is there one?
    fn turn_over(&mut self) -> bool {
        while self.choices.last() == Some(&true) {
            self.choices.pop();
        }
        self.choices.pop().map(|_| self.choices.push(true)).is_some()
    }

    /// A place that concerns these locals, of types with a destructor; then its deletes.
    fn place(&mut self, place: Place, concerned: &dyn Fn(&Local) -> bool, deletes: &[Name]) -> Result<(), Stop> {
        let concerned: Vec<Local> = self.locals.iter().filter(|l| concerned(l) && destructor(self.image, l.ty)).cloned().collect();
        for l in &concerned {
            let shown = self.shown.entry((place, l.name)).or_default();
            shown.deleted = deletes.contains(&l.name);
            self.counts.passed += (l.held && !shown.deleted) as usize;
            let seen = if l.held { &mut shown.held } else { &mut shown.lost };
            seen.get_or_insert_with(|| self.choices[..self.used].to_vec());
        }
        for n in deletes {
            let wrong = match concerned.iter().any(|l| l.name == *n) {
                false => "a delete is put in of what the place doesn't concern",
                true if !local(&self.locals, *n).is_some_and(|l| l.held) => "a run comes to a delete of what it doesn't hold",
                true => {
                    self.counts.deletes += 1;
                    hold(&mut self.locals, *n, false);
                    continue;
                }
            };
            return Err(Stop::Wrong(format!("{wrong}: {} at {}{}", self.text(*n), self.at(place), self.choices_text())));
        }
        Ok(())
    }

    fn text(&self, n: Name) -> String {
        String::from_utf8_lossy(&self.image.names[n as usize]).into_owned()
    }

    fn at(&self, place: Place) -> String {
        format!("{} {}", if place.0 { "the end of the block at" } else { "the statement at" }, place.1)
    }

    fn choices_text(&self) -> String {
        format!(", choices {}", digits(&self.choices[..self.used]))
    }

    fn block(&mut self, b: &Returned, depth: usize) -> Result<(), Stop> {
        for (deletes, step) in &b.steps {
            match step {
                Step::Simple(s) => self.simple(s, deletes, depth)?,
                Step::Block(inner) => self.block(inner, depth + 1)?,
                Step::If(e, then, other) => {
                    expression(self.image, e, &mut self.locals);
                    match (self.choose(), other) {
                        (true, _) => self.block(then, depth + 1)?,
                        (false, Some(other)) => self.block(other, depth + 1)?,
                        (false, None) => {}
                    }
                }
                Step::While(e, body) => {
                    expression(self.image, e, &mut self.locals);
                    let mut turns = 0;
                    while turns < TURNS && self.choose() {
                        turns += 1;
                        self.block(body, depth + 1)?;
                        expression(self.image, e, &mut self.locals);
                    }
                }
            }
        }
        let parameters = depth == 1 && self.switches & 8 != 0;
        self.place((true, b.span), &|l| l.depth == depth || parameters && l.depth == 0, &b.end)?;
        self.locals.retain(|l| l.depth != depth);
        Ok(())
    }

    fn simple(&mut self, s: &Stmt, deletes: &[Name], depth: usize) -> Result<(), Stop> {
        match s {
            Stmt::Assign { span, dst, val, .. } => {
                expression(self.image, dst, &mut self.locals);
                expression(self.image, val, &mut self.locals);
                let target = match dst.through().node {
                    Node::Ident(n) => Some(n),
                    _ => None,
                };
                self.place((false, *span), &|l| Some(l.name) == target, deletes)?;
                assigned(self.image, dst, val, &mut self.locals);
            }
            Stmt::Return { span, value, .. } => {
                value.iter().for_each(|e| expression(self.image, e, &mut self.locals));
                let (given, place) = (value.as_ref().and_then(named), value.is_some() || self.switches & 1 != 0);
                self.place((false, *span), &|l| place && Some(l.name) != given, deletes)?;
                return Err(Stop::Return);
            }
            _ => simple(self.image, s, depth, &mut self.locals),
        }
        Ok(())
    }

    /// Every run; false if there are too many.
    fn all(&mut self, b: &Returned) -> Result<bool, String> {
        loop {
            (self.used, self.locals) = (0, entered(self.image));
            if let Err(Stop::Wrong(found)) = self.block(b, 1) {
                return Err(found);
            }
            self.counts.runs += 1;
            if !self.turn_over() {
                return Ok(true);
            }
            if self.counts.runs == MOST_RUNS {
                return Ok(false);
            }
        }
    }

    /// A held value is passed over exactly if another run comes to the place without holding it.
    fn passed_over(&self) -> Result<(), String> {
        for ((place, name), shown) in &self.shown {
            let Some(held) = &shown.held else { continue };
            if shown.deleted == shown.lost.is_some() {
                let (what, lost) = (if shown.deleted { "deleted" } else { "passed over" }, shown.lost.as_deref().map(digits));
                let lost = lost.map_or("by no run".to_string(), |c| format!("by choices {c}"));
                let (name, at) = (self.text(*name), self.at(*place));
                return Err(format!("{name} is {what} at {at}, held by choices {}, not held {lost}", digits(held)));
            }
        }
        Ok(())
    }
}

fn digits(choices: &[bool]) -> String {
    choices.iter().map(|c| if *c { '1' } else { '0' }).collect()
}

// ---- bodies ----

/// What a run of the bench counts.
#[derive(Default)]
pub struct Brute {
    bodies: usize,
    settings: usize,
    left_out: usize,
    counts: Counts,
    places: usize,
}

impl Brute {
    /// A plain body under one setting, returned by a pass.
    pub fn setting(&mut self, tree: &Image, switches: u32, pass: Pass) -> Result<(), String> {
        let Ok(answer) = pass(tree, switches) else { return Ok(()) };
        let given = reader::read(&answer.output).map_err(|fault| format!("what is returned is refused by {fault}"))?;
        let returned = aligned(&given.body, &tree.body, switches)?;
        if image::write_with(&given, &struck(&returned, &tree.body)).bytes != image::write(tree).bytes {
            return Err("without the insertions it is another image".to_string());
        }
        let (locals, shown, counts) = (vec![], BTreeMap::new(), Counts::default());
        let mut runs = Runs { image: tree, switches, choices: vec![], used: 0, locals, shown, counts };
        if !runs.all(&returned)? {
            self.left_out += 1;
            return Ok(());
        }
        runs.passed_over()?;
        self.settings += 1;
        self.counts.runs += runs.counts.runs;
        self.counts.deletes += runs.counts.deletes;
        self.counts.passed += runs.counts.passed;
        self.places += runs.shown.len();
        Ok(())
    }

    /// Under all settings; the bytes are the library's too, if there is one.
    fn body(&mut self, seed: u64, tree: &Image) -> bool {
        self.bodies += 1;
        for switches in 0..16 {
            let found = self.setting(tree, switches, crate::rules::of_switched).and_then(|_| same_bytes(tree, switches));
            if let Err(found) = found {
                let hex: String = image::write(tree).bytes.iter().map(|b| format!("{b:02x}")).collect();
                println!("WRONG body {seed} under {switches}: {found}\n  {hex}");
                return false;
            }
        }
        true
    }
}

#[cfg(ours)]
fn same_bytes(tree: &Image, switches: u32) -> Result<(), String> {
    let expected = crate::rules::of_switched(tree, switches).map(|a| a.output);
    match crate::ours::answer(Some(switches), &image::write(tree).bytes).map(|a| a.output) == expected {
        true => Ok(()),
        false => Err("the library returns another body".to_string()),
    }
}

#[cfg(not(ours))]
fn same_bytes(_: &Image, _: u32) -> Result<(), String> {
    Ok(())
}

/// So many bodies; 0, or 1 at the first that is not as demanded.
pub fn brute(bodies: u64, seed: u64) -> i32 {
    let start = Instant::now();
    let mut brute = Brute::default();
    for i in 0..bodies {
        if !brute.body(seed + i, &plain::body(seed + i)) {
            return 1;
        }
    }
    let Brute { bodies, settings, left_out, counts, places } = brute;
    println!(
        "{bodies} plain bodies, {settings} settings of one, {left_out} left out with over {MOST_RUNS} runs, {:.0} s: {} runs, {} deletes run, {} held values passed over, {places} places of a local; as demanded",
        start.elapsed().as_secs_f64(),
        counts.runs,
        counts.deletes,
        counts.passed
    );
    0
}
