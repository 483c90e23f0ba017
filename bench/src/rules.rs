//! A third reading of the rules: the definitions of crates/rules/specs and crates/tables_lookup/specs, clause by clause and under their names,
//! so that they can be run beside the Rust. Lists are newest first. A `Code` is a slice of statements, the rest of a list its tail.
#![allow(non_snake_case)]
use crate::answer::{Answer, Error, Left, Outcome};
use crate::image::{self, Image, Name, Node, SpanNo, Ty, TyNo};

// ---- lookup: First, Ty, Signature, Name ----

/// The tables of an image, and the switches.
pub struct Tables<'a>(&'a Image, u32);

impl Tables<'_> {
    fn inside(&self, array: bool, t: TyNo) -> TyNo {
        match self.0.types[t as usize] {
            Ty::Array(of) if array => self.inside(array, of),
            Ty::Pointer(of) if !array => self.inside(array, of),
            _ => t,
        }
    }

    fn structNamed(&self, n: Name) -> Option<usize> {
        self.0.structs.iter().position(|x| x.name == n)
    }

    fn structShaped(&self, k: u16) -> Option<usize> {
        if k == 0 { None } else { self.0.structs.iter().position(|x| x.shape == k) }
    }

    fn structOf(&self, t: TyNo) -> Option<usize> {
        match self.0.types[self.inside(true, t) as usize] {
            Ty::Named(of) => self.structNamed(of),
            Ty::Generic(of, shape) => self.structNamed(of).or(self.structShaped(shape)),
            _ => None,
        }
    }

    fn auto(&self, t: TyNo) -> bool {
        self.structOf(t).is_some_and(|i| self.0.structs[i].destructor)
    }

    fn classOf(&self, t: TyNo) -> Option<Name> {
        match self.0.types[self.inside(false, t) as usize] {
            Ty::Named(of) => Some(of),
            _ => None,
        }
    }

    fn modifierOf(&self, t: TyNo, m: Name) -> Option<u8> {
        let i = self.structNamed(self.classOf(t)?)?;
        self.0.structs[i].methods.iter().find(|x| x.0 == m).map(|x| x.1)
    }

    fn consumes(&self, t: TyNo, m: Name) -> bool {
        self.modifierOf(t, m) == Some(3)
    }

    fn globalIn(&self, n: Name) -> Option<SpanNo> {
        self.0.globals.iter().find(|x| x.0 == n).map(|x| x.1)
    }

    fn isTempOf(&self, n: Name) -> bool {
        self.0.names[n as usize].starts_with(b"__tmp")
    }

    fn isMoveOf(&self, n: Name) -> bool {
        self.0.names[n as usize] == b"std::move"
    }
}

// ---- body: Expr, Stmt ----

#[derive(Clone, Copy)]
struct Head {
    tag: usize,
    span: SpanNo,
    ty: TyNo,
    arg: u16,
}

/// A node: head, fixed children, items; and the node of the image that it is.
struct Expr<'a> {
    head: Head,
    ks: Vec<Expr<'a>>,
    xs: Vec<Expr<'a>>,
    of: &'a image::Expr,
}

const ARG_WIDTH: [usize; 16] = [0, 2, 0, 1, 0, 0, 0, 0, 0, 0, 0, 0, 0, 0, 2, 0];
const COUNT_WIDTH: [usize; 16] = [0, 0, 0, 0, 0, 0, 2, 2, 0, 2, 0, 0, 0, 0, 2, 0];
const LAST_WIDTH: [usize; 16] = [0, 0, 0, 0, 0, 0, 0, 0, 0, 0, 0, 2, 0, 0, 0, 0];

fn node<'a>(of: &'a image::Expr) -> Expr<'a> {
    let many = |list: &'a [image::Expr]| list.iter().map(node).collect::<Vec<_>>();
    let (tag, arg, ks, xs) = match &of.node {
        Node::Ident(n) => (1, *n, vec![], vec![]),
        Node::This => (2, 0, vec![], vec![]),
        Node::Unary(op, e) => (3, *op as u16, vec![node(e)], vec![]),
        Node::Casting(e) => (4, 0, vec![node(e)], vec![]),
        Node::Binary(a, b) => (5, 0, vec![node(a), node(b)], vec![]),
        Node::Call(f, xs) => (6, 0, vec![node(f)], many(xs)),
        Node::List(xs) => (7, 0, vec![], many(xs)),
        Node::Sized(e) => (8, 0, vec![node(e)], vec![]),
        Node::Obj(xs) => (9, 0, vec![], many(xs)),
        Node::Delete(e) => (10, 0, vec![node(e)], vec![]),
        Node::Field(e, n) => (11, *n, vec![node(e)], vec![]),
        Node::Indexing(a, b) => (12, 0, vec![node(a), node(b)], vec![]),
        Node::StaticAccess => (13, 0, vec![], vec![]),
        Node::Intrinsic(n, xs) => (14, *n, vec![], many(xs)),
        Node::Literal => (15, 0, vec![], vec![]),
    };
    Expr { head: Head { tag, span: of.span, ty: of.ty, arg }, ks, xs, of }
}

fn exprBytes(e: &Expr<'_>) -> usize {
    let tag = e.head.tag;
    7 + ARG_WIDTH[tag] + COUNT_WIDTH[tag] + LAST_WIDTH[tag] + e.ks.iter().chain(&e.xs).map(exprBytes).sum::<usize>()
}

fn noopUnary(h: Head) -> bool {
    h.tag == 3 && h.arg == 0
}

fn through<'e, 'a>(e: &'e Expr<'a>) -> &'e Expr<'a> {
    match &e.ks[..] {
        [c, ..] if noopUnary(e.head) => through(c),
        _ => e,
    }
}

enum Stmt<'a> {
    ExprStmt(SpanNo, Expr<'a>),
    Variable(bool, SpanNo, Name, TyNo, Expr<'a>),
    Assign(SpanNo, Expr<'a>, Expr<'a>, TyNo),
    Return(SpanNo, Expr<'a>, TyNo),
    BareReturn(SpanNo, TyNo),
    Block(SpanNo, Code<'a>),
    IfElse(SpanNo, Expr<'a>, SpanNo, Code<'a>, SpanNo, Code<'a>),
    IfThen(SpanNo, Expr<'a>, SpanNo, Code<'a>),
    While(SpanNo, Expr<'a>, SpanNo, Code<'a>),
    Jump(bool, SpanNo),
}
use Stmt::*;

type Code<'a> = Vec<Stmt<'a>>;

fn code(block: &image::Block) -> Code<'_> {
    let one = |s| match s {
        &image::Stmt::Block(ref b) => Block(b.span, code(b)),
        image::Stmt::Return { span, value: Some(e), ty } => Return(*span, node(e), *ty),
        image::Stmt::Return { span, value: None, ty } => BareReturn(*span, *ty),
        image::Stmt::Expr { span, expr } => ExprStmt(*span, node(expr)),
        image::Stmt::Variable { constant, span, name, ty, value } => Variable(*constant, *span, *name, *ty, node(value)),
        image::Stmt::Assign { span, dst, val, ty } => Assign(*span, node(dst), node(val), *ty),
        image::Stmt::IfElse { span, condition, then, other: Some(u) } => {
            IfElse(*span, node(condition), then.span, code(then), u.span, code(u))
        }
        image::Stmt::IfElse { span, condition, then, other: None } => IfThen(*span, node(condition), then.span, code(then)),
        image::Stmt::While { span, condition, body } => While(*span, node(condition), body.span, code(body)),
        image::Stmt::Break(span) => Jump(false, *span),
        image::Stmt::Continue(span) => Jump(true, *span),
    };
    block.statements.iter().map(one).collect()
}

fn codeBytes(c: &[Stmt<'_>]) -> usize {
    let one = |s: &Stmt<'_>| match s {
        ExprStmt(_, e) => 5 + exprBytes(e),
        Variable(_, _, _, _, e) => 9 + exprBytes(e),
        Assign(_, e, v, _) => 7 + exprBytes(e) + exprBytes(v),
        Return(_, e, _) => 8 + exprBytes(e),
        BareReturn(..) => 8,
        Block(_, c) => 7 + codeBytes(c),
        IfElse(_, e, _, t, _, u) => 18 + exprBytes(e) + codeBytes(t) + codeBytes(u),
        IfThen(_, e, _, t) => 12 + exprBytes(e) + codeBytes(t),
        While(_, e, _, t) => 11 + exprBytes(e) + codeBytes(t),
        Jump(..) => 5,
    };
    c.iter().map(one).sum()
}

// ---- Expr: views ----

type Named = Option<(Name, SpanNo)>;

fn identIn(e: &Expr<'_>) -> Named {
    let h = through(e).head;
    (h.tag == 1).then_some((h.arg, h.span))
}

fn nameIn(e: &Expr<'_>) -> Named {
    let h = through(e).head;
    if h.tag == 2 { Some((0, h.span)) } else { identIn(e) }
}

fn isCall(e: &Expr<'_>) -> bool {
    through(e).head.tag == 6
}

fn calleeAt(e: &Expr<'_>, at: usize) -> usize {
    if noopUnary(e.head) { calleeAt(&e.ks[0], at + 8) } else { at + 7 }
}

// ---- Stack ----

#[derive(Clone, Copy)]
struct Static {
    name: Name,
    ty: TyNo,
    depth: usize,
    born: SpanNo,
}

type Stack = Vec<(Static, State)>;

fn shape(s: &Stack) -> Vec<Static> {
    s.iter().map(|l| l.0).collect()
}

fn inFrame(n: Name, d: usize, f: &dyn Fn(&State) -> State, s: &mut [(Static, State)]) {
    for (l, a) in s {
        if l.name == n && l.depth == d {
            *a = f(a);
        }
    }
}

fn mark(n: Name, f: &dyn Fn(&State) -> State, mut s: Stack) -> Stack {
    if let Some(i) = s.iter().position(|l| l.0.name == n) {
        let d = s[i].0.depth;
        s[i].1 = f(&s[i].1);
        inFrame(n, d, f, &mut s[i + 1..]);
    }
    s
}

fn lookup(n: Name, s: &Stack) -> Option<&(Static, State)> {
    s.iter().find(|l| l.0.name == n)
}

fn pop(d: usize, mut s: Stack) -> Stack {
    s.retain(|l| l.0.depth != d);
    s
}

fn staticOf(n: Name, g: &[Static]) -> Option<Static> {
    g.iter().find(|s| s.name == n).copied()
}

fn has(n: Name, g: &[Static]) -> bool {
    g.iter().any(|s| s.name == n)
}

// ---- State ----

#[derive(Clone, Copy, PartialEq, Eq)]
enum Kind {
    Deleted,
    Moved,
    Consumed,
}
use Kind::*;

#[derive(Clone, PartialEq, Eq)]
enum State {
    Alive,
    Gone(bool, Kind, Vec<SpanNo>),
}
use State::*;

fn handState(p: SpanNo, a: &State) -> State {
    match a {
        Alive => Gone(false, Moved, vec![p]),
        gone => gone.clone(),
    }
}

fn combine(mut ps: Vec<SpanNo>, qs: &[SpanNo]) -> Vec<SpanNo> {
    for q in qs {
        if !ps.contains(q) {
            ps.push(*q);
        }
    }
    ps
}

fn joinKind(a: Kind, b: Kind) -> Kind {
    if a == b { a } else { Consumed }
}

fn joinState(conditional: bool, a: &State, b: &State) -> State {
    match (a, b) {
        (Alive, Alive) => Alive,
        (Alive, Gone(_, k, ps)) | (Gone(_, k, ps), Alive) => Gone(true, *k, ps.clone()),
        (Gone(c, k, ps), Gone(d, l, qs)) => {
            if c == d && k == l && ps == qs {
                a.clone()
            } else {
                Gone(conditional && *c && *d && k == l, joinKind(*k, *l), combine(ps.clone(), qs))
            }
        }
    }
}

// ---- Effects ----

enum Effect {
    Use(Name, SpanNo),
    Kill(Kind, Name, SpanNo),
    Hand(Name, SpanNo),
    BadMove(SpanNo, u32),
    GlobalMove(SpanNo, SpanNo),
}
use Effect::*;

const TAKES: [u8; 16] = [0, 0, 0, 0, 0, 0, 1, 0, 1, 1, 0, 0, 0, 0, 0, 0];

fn handed(k: usize, tag: usize) -> bool {
    k == 0 && TAKES[tag] == 1
}

impl Tables<'_> {
    fn own(&self, h: Head) -> Vec<Effect> {
        match h.tag {
            1 => vec![Use(h.arg, h.span)],
            2 => vec![Use(0, h.span)],
            _ => vec![],
        }
    }

    fn handName(&self, g: &[Static], n: Name, p: SpanNo) -> Vec<Effect> {
        if has(n, g) && self.isTempOf(n) { vec![Hand(n, p)] } else { vec![] }
    }

    fn handHead(&self, g: &[Static], h: Head) -> Vec<Effect> {
        match h.tag {
            1 => self.handName(g, h.arg, h.span),
            2 => self.handName(g, 0, h.span),
            _ => vec![],
        }
    }

    fn consume(&self, g: &[Static], p: SpanNo, m: Name, ty: TyNo, h: Head) -> Vec<Effect> {
        if h.tag == 1 && has(h.arg, g) && self.consumes(ty, m) { vec![Kill(Consumed, h.arg, p)] } else { vec![] }
    }

    fn receiver(&self, g: &[Static], ks: &[Expr<'_>]) -> Vec<Effect> {
        let Some(f) = ks.first() else { return vec![] };
        let (h, ts) = (through(f).head, &through(f).ks);
        match ts.first() {
            Some(t) if h.tag == 11 => self.consume(g, h.span, h.arg, t.head.ty, through(t).head),
            _ => vec![],
        }
    }

    fn moveLocal(&self, g: &[Static], n: Name, p: SpanNo) -> Effect {
        match (has(n, g), self.isTempOf(n)) {
            (true, true) => BadMove(p, 3),
            (true, false) => Kill(Moved, n, p),
            (false, _) => BadMove(p, 2),
        }
    }

    fn moveHead(&self, g: &[Static], q: SpanNo, h: Head) -> Effect {
        match (h.tag, self.globalIn(h.arg)) {
            (1, Some(def)) => GlobalMove(h.span, def),
            (1, None) => self.moveLocal(g, h.arg, h.span),
            (2, _) => self.moveLocal(g, 0, h.span),
            _ => BadMove(q, 1),
        }
    }

    fn finish(&self, g: &[Static], e: &Expr<'_>) -> Vec<Effect> {
        match (e.head.tag, e.xs.first()) {
            (6, _) => self.receiver(g, &e.ks),
            (14, Some(x)) if self.isMoveOf(e.head.arg) => vec![self.moveHead(g, x.head.span, through(x).head)],
            _ => vec![],
        }
    }

    fn effects(&self, g: &[Static], e: &Expr<'_>) -> Vec<Effect> {
        let tag = e.head.tag;
        let mut out = self.own(e.head);
        out.extend(self.group(g, handed(COUNT_WIDTH[tag], tag), &e.ks));
        out.extend(self.group(g, handed(0, tag), &e.xs));
        out.extend(self.finish(g, e));
        out
    }

    fn group(&self, g: &[Static], b: bool, es: &[Expr<'_>]) -> Vec<Effect> {
        let one = |e| {
            let mut out = self.effects(g, e);
            if b {
                out.extend(self.handHead(g, through(e).head));
            }
            out
        };
        es.iter().flat_map(one).collect()
    }

    fn exprStmtEffects(&self, g: &[Static], e: &Expr<'_>) -> Vec<Effect> {
        let mut out = self.effects(g, e);
        if through(e).head.tag == 10
            && let Some((n, s)) = nameIn(&through(e).ks[0])
        {
            out.push(Kill(Deleted, n, s));
        }
        out
    }

    fn takeOver(&self, g: &[Static], n: Name, t: TyNo, e: &Expr<'_>) -> Vec<Effect> {
        match nameIn(e) {
            Some((m, s)) if m != n && self.isTempOf(m) && !self.isTempOf(n) && staticOf(m, g).is_some_and(|l| l.ty == t) => {
                vec![Kill(Deleted, m, s)]
            }
            _ => vec![],
        }
    }

    fn assignEffects(&self, g: &[Static], dst: &Expr<'_>, val: &Expr<'_>) -> Vec<Effect> {
        let mut out = self.effects(g, dst);
        out.extend(self.effects(g, val));
        out
    }

    fn assignTakes(&self, g: &[Static], dst: &Expr<'_>, val: &Expr<'_>) -> Vec<Effect> {
        match nameIn(dst).and_then(|(n, _)| staticOf(n, g)) {
            Some(s) => self.takeOver(g, s.name, s.ty, val),
            None => vec![],
        }
    }
}

// ---- Rules ----

fn sureFrom(c: &[Stmt<'_>], b: bool) -> bool {
    match c {
        [] => b,
        [Return(..) | BareReturn(..), r @ ..] => sureFrom(r, true),
        [Block(_, c), r @ ..] => sureFrom(r, sureFrom(c, false)),
        [IfElse(_, _, _, t, _, u), r @ ..] => sureFrom(r, sureFrom(t, false) && sureFrom(u, false)),
        [_, r @ ..] => sureFrom(r, false),
    }
}

fn apply(e: &Effect, s: Stack) -> Stack {
    match *e {
        Kill(k, n, p) => mark(n, &|_| Gone(false, k, vec![p]), s),
        Hand(n, p) => mark(n, &|a| handState(p, a), s),
        Use(..) | BadMove(..) | GlobalMove(..) => s,
    }
}

fn applyAll(es: &[Effect], s: Stack) -> Stack {
    es.iter().fold(s, |s, e| apply(e, s))
}

fn revived(n: Named, s: Stack) -> Stack {
    match n {
        None => s,
        Some((n, _)) => mark(n, &|_| Alive, s),
    }
}

fn register(l: Static, mut s: Stack) -> Stack {
    inFrame(l.name, l.depth, &|_| Alive, &mut s);
    s.insert(0, (l, Alive));
    s
}

fn joins(conditional: bool, s: &Stack, t: &Stack) -> Stack {
    s.iter().zip(t).map(|((l, a), (_, b))| (*l, joinState(conditional, a, b))).collect()
}

fn merge(conditional: bool, then: bool, other: bool, s: Stack, t: Stack, u: Stack) -> Stack {
    match (then, other) {
        (true, true) => s,
        (true, false) => u,
        (false, true) => t,
        (false, false) => joins(conditional, &t, &u),
    }
}

/// An inserted delete: span, name, type.
type Drop = (SpanNo, Name, TyNo);

impl Tables<'_> {
    fn collect(&self, q: &dyn Fn(Static) -> bool, p: SpanNo, s: &Stack) -> Vec<Drop> {
        s.iter().filter(|(l, a)| q(*l) && *a == Alive && self.auto(l.ty)).map(|(l, _)| (p, l.name, l.ty)).collect()
    }

    fn leftBehind(&self, p: SpanNo, q: &dyn Fn(Static) -> bool, s: &Stack) -> Vec<Left> {
        s.iter().filter(|(l, a)| q(*l) && *a == Alive && self.auto(l.ty)).map(|(l, _)| (p, l.name, l.born)).collect()
    }

    fn bareReturns(&self) -> bool {
        self.1 & 1 != 0
    }

    fn jumps(&self) -> bool {
        self.1 & 2 != 0
    }

    fn conditional(&self) -> bool {
        self.1 & 4 != 0
    }

    fn parameters(&self) -> bool {
        self.1 & 8 != 0
    }

    fn endDrops(&self, d: usize, p: SpanNo, s: &Stack) -> Vec<Drop> {
        self.collect(&|l| (self.parameters() && d == 1 && l.depth == 0) || l.depth == d, p, s)
    }

    fn jumpDrops(&self, l: Option<usize>, s: &Stack) -> Vec<Drop> {
        self.collect(&|x| self.jumps() && l.is_some_and(|l| l <= x.depth), 0, s)
    }

    fn returnDrops(&self, n: Named, s: &Stack) -> Vec<Drop> {
        self.collect(&|l| n.is_none_or(|(m, _)| l.name != m), 0, s)
    }

    fn assignDrops(&self, p: SpanNo, dst: &Expr<'_>, s: &Stack) -> Vec<Drop> {
        let Some((n, _)) = identIn(dst) else { return vec![] };
        match lookup(n, s) {
            Some((l, Alive)) if self.auto(l.ty) => vec![(p, n, l.ty)],
            _ => vec![],
        }
    }

    fn evaluate(&self, e: &Expr<'_>, s: Stack) -> Stack {
        applyAll(&self.effects(&shape(&s), e), s)
    }

    fn afterExpr(&self, e: &Expr<'_>, s: Stack) -> Stack {
        applyAll(&self.exprStmtEffects(&shape(&s), e), s)
    }

    fn afterVariable(&self, l: Static, e: &Expr<'_>, s: Stack) -> Stack {
        let takes = self.takeOver(&shape(&s), l.name, l.ty, e);
        applyAll(&takes, register(l, self.evaluate(e, s)))
    }

    fn beforeAssign(&self, dst: &Expr<'_>, val: &Expr<'_>, s: Stack) -> Stack {
        applyAll(&self.assignEffects(&shape(&s), dst, val), s)
    }

    fn afterAssign(&self, dst: &Expr<'_>, val: &Expr<'_>, s: Stack) -> Stack {
        let takes = self.assignTakes(&shape(&s), dst, val);
        applyAll(&takes, revived(nameIn(dst), s))
    }

    /// the stack after one statement of a block of depth d
    fn after(&self, stmt: &Stmt<'_>, d: usize, s: Stack) -> Stack {
        match stmt {
            ExprStmt(_, e) => self.afterExpr(e, s),
            Variable(_, span, n, t, e) => self.afterVariable(Static { name: *n, ty: *t, depth: d, born: *span }, e, s),
            Assign(_, e, v, _) => {
                let s = self.beforeAssign(e, v, s);
                self.afterAssign(e, v, s)
            }
            Return(_, e, _) => self.evaluate(e, s),
            BareReturn(..) | Jump(..) => s,
            Block(_, c) => self.exit(c, d + 1, s),
            IfElse(_, e, _, t, _, u) => {
                let s = self.evaluate(e, s);
                let (then, other) = (self.exit(t, d + 1, s.clone()), self.exit(u, d + 1, s.clone()));
                merge(self.conditional(), sureFrom(t, false), sureFrom(u, false), s, then, other)
            }
            IfThen(_, e, _, t) => {
                let s = self.evaluate(e, s);
                let then = self.exit(t, d + 1, s.clone());
                merge(self.conditional(), sureFrom(t, false), false, s.clone(), then, s)
            }
            While(_, e, _, t) => {
                let s = self.evaluate(e, s);
                joins(self.conditional(), &self.exit(t, d + 1, s.clone()), &s)
            }
        }
    }

    fn exit(&self, c: &[Stmt<'_>], d: usize, s: Stack) -> Stack {
        pop(d, c.iter().fold(s, |s, stmt| self.after(stmt, d, s)))
    }

    /// decide, and flatten of it: the statements given back
    fn decide(&self, c: &[Stmt<'_>], p: SpanNo, d: usize, l: Option<usize>, mut s: Stack) -> image::Block {
        let mut out = vec![];
        for stmt in c {
            let inner = |e: &Expr<'_>, t: &[Stmt<'_>], ts, l| self.decide(t, ts, d + 1, l, self.evaluate(e, s.clone()));
            let of = |e: &Expr<'_>| e.of.clone();
            let given = match stmt {
                ExprStmt(span, e) => {
                    let wrapped = self.auto(e.head.ty) && isCall(e);
                    image::Stmt::Expr { span: *span, expr: if wrapped { deleteNode(*span, of(e)) } else { of(e) } }
                }
                Variable(constant, span, name, ty, e) => {
                    image::Stmt::Variable { constant: *constant, span: *span, name: *name, ty: *ty, value: of(e) }
                }
                Assign(span, e, v, ty) => {
                    inserts(self.assignDrops(*span, e, &self.beforeAssign(e, v, s.clone())), &mut out);
                    image::Stmt::Assign { span: *span, dst: of(e), val: of(v), ty: *ty }
                }
                Return(span, e, ty) => {
                    inserts(self.returnDrops(nameIn(e), &self.evaluate(e, s.clone())), &mut out);
                    image::Stmt::Return { span: *span, value: Some(of(e)), ty: *ty }
                }
                BareReturn(span, ty) => {
                    inserts(self.collect(&|_| self.bareReturns(), 0, &s), &mut out);
                    image::Stmt::Return { span: *span, value: None, ty: *ty }
                }
                Block(span, c) => image::Stmt::Block(self.decide(c, *span, d + 1, l, s.clone())),
                IfElse(span, e, ts, t, us, u) => {
                    image::Stmt::IfElse { span: *span, condition: of(e), then: inner(e, t, *ts, l), other: Some(inner(e, u, *us, l)) }
                }
                IfThen(span, e, ts, t) => image::Stmt::IfElse { span: *span, condition: of(e), then: inner(e, t, *ts, l), other: None },
                While(span, e, ts, t) => image::Stmt::While { span: *span, condition: of(e), body: inner(e, t, *ts, Some(d + 1)) },
                Jump(k, span) => {
                    inserts(self.jumpDrops(l, &s), &mut out);
                    if *k { image::Stmt::Continue(*span) } else { image::Stmt::Break(*span) }
                }
            };
            out.push(given);
            s = self.after(stmt, d, s);
        }
        if !sureFrom(c, false) {
            inserts(self.endDrops(d, p, &s), &mut out);
        }
        image::Block { span: p, statements: out }
    }

    fn entered(&self, i: &Image) -> Stack {
        let x = &i.entry;
        let this = (x.receiver >= 2).then_some((0, x.this));
        this.iter().chain(&x.params).fold(vec![], |s, (n, t)| register(Static { name: *n, ty: *t, depth: 0, born: 0 }, s))
    }
}

fn deleteNode(span: SpanNo, e: image::Expr) -> image::Expr {
    image::Expr { span, ty: 0, at: 0, node: Node::Delete(Box::new(e)) }
}

fn inserts(drops: Vec<Drop>, out: &mut Vec<image::Stmt>) {
    out.extend(
        drops
            .into_iter()
            .map(|(span, n, ty)| image::Stmt::Expr { span, expr: deleteNode(span, image::Expr { span, ty, at: 0, node: Node::Ident(n) }) }),
    );
}

// ---- Report ----

#[derive(Default)]
struct Reports {
    errors: Vec<Error>,
    warnings: Vec<(SpanNo, usize)>,
    lefts: Vec<Left>,
}

fn badUse(s: SpanNo, a: &State) -> Option<Error> {
    let Gone(c, k, ps) = a else { return None };
    let (kind, all) = match k {
        Deleted => (1, false),
        Moved => (2, false),
        Consumed => (3, true),
    };
    let others = if all { ps.clone() } else { ps.iter().take(1).copied().collect() };
    Some(Error { kind: kind + 3 * *c as u32, place: s, hint: 0, others })
}

impl Reports {
    fn all(&mut self, es: &[Effect], mut s: Stack) {
        for e in es {
            match *e {
                Use(n, p) => self.errors.extend(lookup(n, &s).and_then(|(_, a)| badUse(p, a))),
                BadMove(place, hint) => self.errors.push(Error { kind: 7, place, hint, others: vec![] }),
                GlobalMove(place, def) => self.errors.push(Error { kind: 8, place, hint: 0, others: vec![def] }),
                Kill(..) | Hand(..) => {}
            }
            s = apply(e, s);
        }
    }

    fn report(&mut self, T: &Tables<'_>, c: &[Stmt<'_>], d: usize, l: Option<usize>, mut at: usize, mut s: Stack) {
        for stmt in c {
            let g = shape(&s);
            match stmt {
                ExprStmt(span, e) => {
                    self.all(&T.exprStmtEffects(&g, e), s.clone());
                    if T.auto(e.head.ty) && isCall(e) {
                        self.warnings.push((*span, calleeAt(e, at + 5)));
                    }
                }
                Variable(_, _, _, _, e) | Return(_, e, _) => self.all(&T.effects(&g, e), s.clone()),
                Assign(_, e, v, _) => self.all(&T.assignEffects(&g, e, v), s.clone()),
                BareReturn(_, _) if T.bareReturns() => {}
                BareReturn(span, _) => self.lefts.extend(T.leftBehind(*span, &|_| true, &s)),
                Jump(..) if T.jumps() => {}
                Block(_, c) => self.report(T, c, d + 1, l, at + 7, s.clone()),
                IfElse(_, e, _, t, _, u) => {
                    self.all(&T.effects(&g, e), s.clone());
                    self.report(T, t, d + 1, l, at + 11 + exprBytes(e), T.evaluate(e, s.clone()));
                    self.report(T, u, d + 1, l, at + 18 + exprBytes(e) + codeBytes(t), T.evaluate(e, s.clone()));
                }
                IfThen(_, e, _, t) => {
                    self.all(&T.effects(&g, e), s.clone());
                    self.report(T, t, d + 1, l, at + 11 + exprBytes(e), T.evaluate(e, s.clone()));
                }
                While(_, e, _, t) => {
                    self.all(&T.effects(&g, e), s.clone());
                    self.report(T, t, d + 1, Some(d + 1), at + 11 + exprBytes(e), T.evaluate(e, s.clone()));
                }
                Jump(_, span) => self.lefts.extend(T.leftBehind(*span, &|x| l.is_some_and(|l| l <= x.depth), &s)),
            }
            at += codeBytes(std::slice::from_ref(stmt));
            s = T.after(stmt, d, s);
        }
    }
}

// ---- Walk ----

fn tooMany(s: &Stack) -> Option<u8> {
    (s.len() > 64).then_some(12)
}

fn tooWide(s: &Stack) -> Option<u8> {
    s.iter().any(|(_, a)| matches!(a, Gone(_, _, ps) if ps.len() > 8)).then_some(13)
}

impl Tables<'_> {
    fn walkFault(&self, c: &[Stmt<'_>], d: usize, mut s: Stack) -> Option<u8> {
        for stmt in c {
            let into = |e: &Expr<'_>, t: &[Stmt<'_>]| self.walkFault(t, d + 1, self.evaluate(e, s.clone()));
            let out = |e: &Expr<'_>, t: &[Stmt<'_>]| self.exit(t, d + 1, self.evaluate(e, s.clone()));
            let found = match stmt {
                Variable(..) => tooMany(&self.after(stmt, d, s.clone())),
                Block(_, c) => self.walkFault(c, d + 1, s.clone()),
                IfElse(_, e, _, t, _, u) => into(e, t).or_else(|| into(e, u)).or_else(|| {
                    if sureFrom(t, false) || sureFrom(u, false) {
                        None
                    } else {
                        tooWide(&joins(self.conditional(), &out(e, t), &out(e, u)))
                    }
                }),
                IfThen(_, e, _, t) => into(e, t).or_else(|| {
                    if sureFrom(t, false) { None } else { tooWide(&joins(self.conditional(), &out(e, t), &self.evaluate(e, s.clone()))) }
                }),
                While(_, e, _, t) => into(e, t).or_else(|| tooWide(&joins(self.conditional(), &out(e, t), &self.evaluate(e, s.clone())))),
                ExprStmt(..) | Assign(..) | Return(..) | BareReturn(..) | Jump(..) => None,
            };
            if found.is_some() {
                return found;
            }
            s = self.after(stmt, d, s);
        }
        None
    }
}

/// imageFault, returnedImage, reports, and the states that `exit` leaves.
pub fn of_image(i: &Image) -> Outcome {
    of_switched(i, 0)
}

/// The same under switches.
pub fn of_switched(i: &Image, switches: u32) -> Outcome {
    let T = Tables(i, switches);
    let body = code(&i.body);
    let start = T.entered(i);
    if let Some(fault) = tooMany(&start).or_else(|| T.walkFault(&body, 1, start.clone())) {
        return Err(fault);
    }
    let written = image::write(&Image { body: T.decide(&body, i.body.span, 1, None, start.clone()), ..i.clone() });
    let bodyStart = image::write(&Image { body: image::Block::default(), ..i.clone() }).bytes.len();
    let mut r = Reports::default();
    r.report(&T, &body, 1, None, bodyStart, start.clone());
    let state = |a: &State| match a {
        Alive => (0, vec![]),
        Gone(c, k, ps) => (1 + *k as u8 + 3 * *c as u8, ps.clone()),
    };
    let states = T.exit(&body, 1, start).iter().map(|(_, a)| state(a)).collect();
    Ok(Answer { output: written.bytes, counts_fit: written.counts_fit, errors: r.errors, warnings: r.warnings, lefts: r.lefts, states })
}
