//! Short words for images written by hand.
use crate::image::*;

/// Names of `tables`.
pub const THIS: Name = 0;
pub const V: Name = 1;
pub const W: Name = 2;
pub const MOVE: Name = 4;
pub const G: Name = 5;
pub const TMP: Name = 6;
pub const TAKE: Name = 7;
/// Types of `tables`.
pub const PLAIN: TyNo = 0;
pub const T: TyNo = 1;
pub const POINTER: TyNo = 2;

/// The tables of crates/rules/proofs/Nodes.antt. Names: `this`, `v`, `w`, `T`, `std::move`, `g`, `__tmp`, `take`. Types: plain, T, a
/// pointer to T. The struct T has a destructor and the consuming method `take`. `g` is a global defined at 99.
pub fn tables() -> Image {
    Image {
        names: ["this", "v", "w", "T", "std::move", "g", "__tmp", "take"].iter().map(|n| n.as_bytes().to_vec()).collect(),
        types: vec![Ty::Plain, Ty::Named(3), Ty::Pointer(1)],
        structs: vec![Struct { name: 3, destructor: true, shape: 0, methods: vec![(TAKE, 3)] }],
        globals: vec![(G, 99)],
        entry: Entry::default(),
        body: Block { span: 10, statements: vec![] },
    }
}

/// With these parameters of type T and these statements.
pub fn body(params: &[Name], statements: Vec<Stmt>) -> Image {
    let mut i = tables();
    i.entry.params = params.iter().map(|n| (*n, T)).collect();
    i.body.statements = statements;
    i
}

pub fn node(span: SpanNo, ty: TyNo, node: Node) -> Expr {
    Expr { span, ty, at: 0, node }
}

pub fn ident(span: SpanNo, name: Name) -> Expr {
    node(span, T, Node::Ident(name))
}

pub fn this(span: SpanNo) -> Expr {
    node(span, T, Node::This)
}

pub fn literal() -> Expr {
    node(1, PLAIN, Node::Literal)
}

pub fn unary(span: SpanNo, ty: TyNo, op: u8, e: Expr) -> Expr {
    node(span, ty, Node::Unary(op, Box::new(e)))
}

/// A unary without an operator.
pub fn under(e: Expr) -> Expr {
    unary(8, PLAIN, 0, e)
}

pub fn call(span: SpanNo, ty: TyNo, callee: Expr, args: Vec<Expr>) -> Expr {
    node(span, ty, Node::Call(Box::new(callee), args))
}

pub fn delete(span: SpanNo, e: Expr) -> Expr {
    node(span, PLAIN, Node::Delete(Box::new(e)))
}

pub fn field(span: SpanNo, target: Expr, name: Name) -> Expr {
    node(span, PLAIN, Node::Field(Box::new(target), name))
}

pub fn std_move(span: SpanNo, args: Vec<Expr>) -> Expr {
    node(span, PLAIN, Node::Intrinsic(MOVE, args))
}

pub fn run(span: SpanNo, expr: Expr) -> Stmt {
    Stmt::Expr { span, expr }
}

/// `std::move(e);`
pub fn moving(span: SpanNo, e: Expr) -> Stmt {
    run(span, std_move(span, vec![e]))
}

/// `delete name;`, every span the same
pub fn deletion(span: SpanNo, name: Name) -> Stmt {
    run(span, delete(span, ident(span, name)))
}

pub fn set(span: SpanNo, name: Name, ty: TyNo, value: Expr) -> Stmt {
    Stmt::Variable { constant: false, span, name, ty, value }
}

pub fn assign(span: SpanNo, dst: Expr, val: Expr) -> Stmt {
    Stmt::Assign { span, dst, val, ty: T }
}

pub fn give(span: SpanNo, value: Expr) -> Stmt {
    Stmt::Return { span, value: Some(value), ty: T }
}

pub fn back(span: SpanNo) -> Stmt {
    Stmt::Return { span, value: None, ty: PLAIN }
}

pub fn block(span: SpanNo, statements: Vec<Stmt>) -> Block {
    Block { span, statements }
}

pub fn when(span: SpanNo, then: Block, other: Option<Block>) -> Stmt {
    Stmt::IfElse { span, condition: literal(), then, other }
}

pub fn repeat(span: SpanNo, body: Block) -> Stmt {
    Stmt::While { span, condition: literal(), body }
}
