//! Small plain bodies from a seed, for brute.rs.
use crate::brute::{self, Local, Locals};
use crate::image::*;
use crate::random::Random;

/// Three names of locals, one that is a global's too, two of temporaries; then structs and what is called.
const NAMES: [&str; 12] = ["this", "a", "b", "c", "g", "__tmp0", "__tmp1", "T", "P", "std::move", "take", "f"];
const LOCALS: [Name; 9] = [1, 1, 2, 2, 3, 3, 4, 5, 6];
const T: Name = 7;
const P: Name = 8;
const MOVE: Name = 9;
const TAKE: Name = 10;
const F: Name = 11;
/// Plain; T, which has a destructor; P, which has none; pointer to T; array of T; a generic of T's shape; pointer to P.
const TYPES: [Ty; 7] = [Ty::Plain, Ty::Named(T), Ty::Named(P), Ty::Pointer(1), Ty::Array(1), Ty::Generic(F, 1), Ty::Pointer(2)];

struct Maker {
    random: Random,
    span: SpanNo,
    budget: usize,
    /// the names of the frames that are open, newest last
    frames: Vec<Vec<(Name, TyNo)>>,
}

/// The first plain body of the seed's.
pub fn body(seed: u64) -> Image {
    let mut random = Random::new(seed.wrapping_mul(0x51ed270b));
    loop {
        let image = Maker { random: Random::new(random.next()), span: 1, budget: 0, frames: vec![] }.image();
        if is_plain(&image) {
            return image;
        }
    }
}

impl Maker {
    fn image(mut self) -> Image {
        let destructor = |name, destructor, shape| Struct { name, destructor, shape, methods: vec![(TAKE, 3), (F, 1)] };
        let mut entry = Entry::default();
        if self.random.chance(35) {
            (entry.receiver, entry.this) = self.random.one_of(&[(4, 1), (4, 1), (4, 2), (2, 3), (3, 3), (3, 6)]);
        }
        self.frames.push(if entry.receiver >= 2 { vec![(0, entry.this)] } else { vec![] });
        for _ in 0..self.random.one_of(&[0, 1, 1, 2]) {
            entry.params.extend(self.fresh());
        }
        self.budget = self.random.between(2, 14);
        let body = self.block(1);
        Image {
            names: NAMES.iter().map(|n| n.as_bytes().to_vec()).collect(),
            types: TYPES.to_vec(),
            structs: vec![destructor(P, false, 0), destructor(T, true, 1)],
            globals: vec![(4, 1)],
            entry,
            body,
        }
    }

    // A local of a name that no frame has.
    fn fresh(&mut self) -> Option<(Name, TyNo)> {
        let name = self.random.one_of(&LOCALS);
        let taken = self.frames.iter().flatten().any(|l| l.0 == name);
        let ty = self.random.one_of(&[0, 1, 1, 1, 1, 1, 2, 3, 4, 5]);
        let found = (!taken).then_some((name, ty));
        self.frames.last_mut().unwrap().extend(found);
        found
    }

    fn next_span(&mut self) -> SpanNo {
        self.span += 1;
        self.span
    }

    fn block(&mut self, depth: usize) -> Block {
        let span = self.next_span();
        let mut statements: Vec<Stmt> = vec![];
        self.frames.push(vec![]);
        let most = if depth == 1 { 14 } else { self.random.between(0, 4) };
        while self.budget > 0 && statements.len() < most && !statements.last().is_some_and(returns) {
            self.budget -= 1;
            statements.push(self.stmt(depth));
        }
        self.frames.pop();
        Block { span, statements }
    }

    fn stmt(&mut self, depth: usize) -> Stmt {
        let (span, k) = (self.next_span(), self.random.below(100));
        let k = if depth >= 4 { k % 70 } else { k };
        match k {
            0..24 => self.variable(span),
            24..48 => Stmt::Expr { span, expr: self.giving_up() },
            48..59 => Stmt::Assign { span, dst: self.destination(), val: self.value(), ty: 0 },
            59..64 => Stmt::Return { span, value: Some(self.value()), ty: 0 },
            64..67 => Stmt::Return { span, value: None, ty: 0 },
            67..70 if depth > 1 => Stmt::Return { span, value: None, ty: 0 },
            67..70 => Stmt::Expr { span, expr: self.name() },
            70..74 => Stmt::Block(self.block(depth + 1)),
            74..82 => Stmt::IfElse { span, condition: self.condition(), then: self.block(depth + 1), other: None },
            82..91 => {
                let (condition, then) = (self.condition(), self.block(depth + 1));
                Stmt::IfElse { span, condition, then, other: Some(self.block(depth + 1)) }
            }
            _ => Stmt::While { span, condition: self.condition(), body: self.block(depth + 1) },
        }
    }

    fn variable(&mut self, span: SpanNo) -> Stmt {
        let (constant, value) = (self.random.chance(20), self.value());
        match self.fresh() {
            Some((name, ty)) => Stmt::Variable { constant, span, name, ty, value },
            None => Stmt::Expr { span, expr: value },
        }
    }

    fn node(&mut self, ty: TyNo, node: Node) -> Expr {
        Expr { span: self.next_span(), ty, at: 0, node }
    }

    // An Ident, or a ThisLiteral, mostly of a local of a frame that is open; now and then under a unary without an operator.
    fn name(&mut self) -> Expr {
        let open: Vec<_> = self.frames.concat();
        let (name, ty) = match open.is_empty() || self.random.chance(4) {
            true => (self.random.one_of(&LOCALS), 1),
            false => self.random.one_of(&open),
        };
        let node = if name == 0 && self.random.chance(60) { Node::This } else { Node::Ident(name) };
        let e = self.node(ty, node);
        if self.random.chance(6) { self.node(ty, Node::Unary(0, Box::new(e))) } else { e }
    }

    fn destination(&mut self) -> Expr {
        let e = self.name();
        if self.random.chance(10) { self.node(1, Node::Field(Box::new(e), F)) } else { e }
    }

    fn condition(&mut self) -> Expr {
        if self.random.chance(85) { self.node(0, Node::Literal) } else { self.value() }
    }

    fn value(&mut self) -> Expr {
        match self.random.below(10) {
            0..4 => self.node(0, Node::Literal),
            4..7 => self.name(),
            _ => self.giving_up(),
        }
    }

    // A delete, a move, a method call, a call: as an expression the first gives nothing up.
    fn giving_up(&mut self) -> Expr {
        let e = self.name();
        let ty = self.random.one_of(&[0, 0, 1, 2]);
        match self.random.below(10) {
            0..3 => self.node(0, Node::Delete(Box::new(e))),
            3..6 => self.node(ty, Node::Intrinsic(MOVE, vec![e])),
            6..8 => {
                // a generic receiver is refused
                let e = if e.ty == 5 { Expr { ty: 1, ..e } } else { e };
                let method = if self.random.chance(85) { TAKE } else { F };
                let callee = self.node(0, Node::Field(Box::new(e), method));
                self.node(ty, Node::Call(Box::new(callee), vec![]))
            }
            8 => {
                let callee = self.node(0, Node::StaticAccess);
                self.node(ty, Node::Call(Box::new(callee), vec![e]))
            }
            _ => match self.random.below(3) {
                0 => self.node(ty, Node::Obj(vec![e])),
                1 => self.node(ty, Node::Sized(Box::new(e))),
                _ => self.node(ty, Node::List(vec![e])),
            },
        }
    }
}

// ---- plain ----

/// statement_guaranteed_return
fn returns(s: &Stmt) -> bool {
    let block = |b: &Block| b.statements.last().is_some_and(returns);
    match s {
        Stmt::Return { .. } => true,
        Stmt::Block(b) => block(b),
        Stmt::IfElse { then, other: Some(other), .. } => block(then) && block(other),
        _ => false,
    }
}

/// The mission's four conditions. Alive is what the rules come to, walking the body once, past returns too; for this it is as good as held
/// by both branches.
pub fn is_plain(i: &Image) -> bool {
    let locals = brute::entered(i);
    let once = |l: &Local| locals.iter().filter(|m| m.name == l.name).count() == 1;
    locals.iter().all(once) && walk(i, &i.body, 1, locals.clone()).is_some()
}

// The locals after a block, if it is plain.
fn walk(i: &Image, b: &Block, depth: usize, mut locals: Locals) -> Option<Locals> {
    for (at, s) in b.statements.iter().enumerate() {
        if returns(s) && at + 1 < b.statements.len() {
            return None;
        }
        match s {
            Stmt::Break(_) | Stmt::Continue(_) => return None,
            Stmt::Variable { name, .. } if brute::local(&locals, *name).is_some() => return None,
            Stmt::Block(inner) => locals = walk(i, inner, depth + 1, locals)?,
            Stmt::IfElse { condition, then, other, .. } => {
                brute::expression(i, condition, &mut locals);
                let t = walk(i, then, depth + 1, locals.clone())?;
                let u = other.as_ref().map_or(Some(locals.clone()), |u| walk(i, u, depth + 1, locals.clone()))?;
                let last = |b: &Block| b.statements.last().is_some_and(returns);
                locals = match (last(then), other.as_ref().is_some_and(last)) {
                    (true, true) => locals,
                    (true, false) => u,
                    (false, true) => t,
                    (false, false) => both(t, &u),
                };
            }
            Stmt::While { condition, body, .. } => {
                let before = locals.clone();
                brute::expression(i, condition, &mut locals);
                let after = walk(i, body, depth + 1, locals.clone())?;
                if before.iter().zip(&after).any(|(b, a)| b.held && !a.held) {
                    return None;
                }
                locals = both(after, &locals);
            }
            _ => brute::simple(i, s, depth, &mut locals),
        }
    }
    locals.retain(|l| l.depth != depth);
    Some(locals)
}

fn both(mut t: Locals, u: &Locals) -> Locals {
    t.iter_mut().zip(u).for_each(|(l, m)| l.held &= m.held);
    t
}
