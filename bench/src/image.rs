//! An image as a tree, and its bytes (document 01, "The image").

/// A number of the table of names, of types, a shape, a span.
pub type Name = u16;
pub type TyNo = u16;
pub type Shape = u16;
pub type SpanNo = u32;

#[derive(Debug, Clone, Default)]
pub struct Image {
    pub names: Vec<Vec<u8>>,
    pub types: Vec<Ty>,
    pub structs: Vec<Struct>,
    pub globals: Vec<(Name, SpanNo)>,
    pub entry: Entry,
    pub body: Block,
}

#[derive(Debug, Clone, Copy, PartialEq, Eq)]
pub enum Ty {
    Plain,
    Named(Name),
    Generic(Name, Shape),
    Array(TyNo),
    Pointer(TyNo),
}

#[derive(Debug, Clone)]
pub struct Struct {
    pub name: Name,
    pub destructor: bool,
    pub shape: Shape,
    /// name; 0 static, 1 const, 2 mutable, 3 consuming
    pub methods: Vec<(Name, u8)>,
}

#[derive(Debug, Clone, Default)]
pub struct Entry {
    /// 0 no receiver, 1 static, 2 const, 3 mutable, 4 consuming
    pub receiver: u8,
    /// the type of `this`, under 2 to 4
    pub this: TyNo,
    pub params: Vec<(Name, TyNo)>,
}

#[derive(Debug, Clone, Default)]
pub struct Block {
    pub span: SpanNo,
    pub statements: Vec<Stmt>,
}

#[derive(Debug, Clone)]
pub enum Stmt {
    Block(Block),
    Return {
        span: SpanNo,
        value: Option<Expr>,
        ty: TyNo,
    },
    Expr {
        span: SpanNo,
        expr: Expr,
    },
    /// a Let, or a Const
    Variable {
        constant: bool,
        span: SpanNo,
        name: Name,
        ty: TyNo,
        value: Expr,
    },
    Assign {
        span: SpanNo,
        dst: Expr,
        val: Expr,
        ty: TyNo,
    },
    IfElse {
        span: SpanNo,
        condition: Expr,
        then: Block,
        other: Option<Block>,
    },
    While {
        span: SpanNo,
        condition: Expr,
        body: Block,
    },
    Break(SpanNo),
    Continue(SpanNo),
}

#[derive(Debug, Clone)]
pub struct Expr {
    pub span: SpanNo,
    pub ty: TyNo,
    /// where its tag stands in the image it was read from
    pub at: usize,
    pub node: Node,
}

#[derive(Debug, Clone)]
pub enum Node {
    Ident(Name),
    This,
    /// 0 none, 1 Neg, 2 Not, 3 AsRef, 4 Deref
    Unary(u8, Box<Expr>),
    Casting(Box<Expr>),
    Binary(Box<Expr>, Box<Expr>),
    Call(Box<Expr>, Vec<Expr>),
    List(Vec<Expr>),
    Sized(Box<Expr>),
    Obj(Vec<Expr>),
    Delete(Box<Expr>),
    Field(Box<Expr>, Name),
    Indexing(Box<Expr>, Box<Expr>),
    StaticAccess,
    Intrinsic(Name, Vec<Expr>),
    Literal,
}

impl Expr {
    /// Looked through: what stands under unary nodes without an operator.
    pub fn through(&self) -> &Expr {
        match &self.node {
            Node::Unary(0, child) => child.through(),
            _ => self,
        }
    }
}

/// The bytes of an image, and whether each of its counts fits its two bytes.
pub struct Written {
    pub bytes: Vec<u8>,
    pub counts_fit: bool,
}

pub fn write(image: &Image) -> Written {
    write_with(image, &image.body)
}

/// With another body.
pub fn write_with(image: &Image, body: &Block) -> Written {
    let mut out = Written { bytes: vec![0, 0, 0, 0, 1], counts_fit: true };
    tables(&mut out, image);
    entry(&mut out, &image.entry);
    block(&mut out, body);
    let length = out.bytes.len() as u32 - 4;
    out.bytes[..4].copy_from_slice(&length.to_be_bytes());
    out
}

impl Written {
    fn n1(&mut self, n: u8) {
        self.bytes.push(n);
    }

    fn n2(&mut self, n: u16) {
        self.bytes.extend(n.to_be_bytes());
    }

    fn n4(&mut self, n: u32) {
        self.bytes.extend(n.to_be_bytes());
    }

    fn count(&mut self, n: usize) {
        self.counts_fit &= n <= 65535;
        self.n2(n as u16);
    }
}

fn tables(out: &mut Written, image: &Image) {
    out.count(image.names.len());
    for name in &image.names {
        out.n1(name.len() as u8);
        out.bytes.extend(name);
    }
    out.count(image.types.len());
    for ty in &image.types {
        match *ty {
            Ty::Plain => out.n1(0),
            Ty::Named(name) => {
                out.n1(1);
                out.n2(name);
            }
            Ty::Generic(name, shape) => {
                out.n1(2);
                out.n2(name);
                out.n2(shape);
            }
            Ty::Array(inner) => {
                out.n1(3);
                out.n2(inner);
            }
            Ty::Pointer(inner) => {
                out.n1(4);
                out.n2(inner);
            }
        }
    }
    out.count(image.structs.len());
    for s in &image.structs {
        out.n2(s.name);
        out.n1(s.destructor as u8);
        out.n2(s.shape);
        out.count(s.methods.len());
        for (name, modifier) in &s.methods {
            out.n2(*name);
            out.n1(*modifier);
        }
    }
    out.count(image.globals.len());
    for (name, span) in &image.globals {
        out.n2(*name);
        out.n4(*span);
    }
}

fn entry(out: &mut Written, entry: &Entry) {
    out.n1(entry.receiver);
    if entry.receiver >= 2 {
        out.n2(entry.this);
    }
    out.count(entry.params.len());
    for (name, ty) in &entry.params {
        out.n2(*name);
        out.n2(*ty);
    }
}

fn block(out: &mut Written, block: &Block) {
    out.n4(block.span);
    out.count(block.statements.len());
    for s in &block.statements {
        stmt(out, s);
    }
}

fn head(out: &mut Written, tag: u8, span: SpanNo) {
    out.n1(tag);
    out.n4(span);
}

fn stmt(out: &mut Written, s: &Stmt) {
    match s {
        Stmt::Block(inner) => {
            out.n1(1);
            block(out, inner);
        }
        Stmt::Return { span, value, ty } => {
            head(out, 2, *span);
            out.n1(value.is_some() as u8);
            value.iter().for_each(|e| expr(out, e));
            out.n2(*ty);
        }
        Stmt::Expr { span, expr: e } => {
            head(out, 3, *span);
            expr(out, e);
        }
        Stmt::Variable { constant, span, name, ty, value } => {
            head(out, if *constant { 5 } else { 4 }, *span);
            out.n2(*name);
            out.n2(*ty);
            expr(out, value);
        }
        Stmt::Assign { span, dst, val, ty } => {
            head(out, 6, *span);
            expr(out, dst);
            expr(out, val);
            out.n2(*ty);
        }
        Stmt::IfElse { span, condition, then, other } => {
            head(out, 7, *span);
            expr(out, condition);
            block(out, then);
            out.n1(other.is_some() as u8);
            other.iter().for_each(|b| block(out, b));
        }
        Stmt::While { span, condition, body } => {
            head(out, 8, *span);
            expr(out, condition);
            block(out, body);
        }
        Stmt::Break(span) => head(out, 9, *span),
        Stmt::Continue(span) => head(out, 10, *span),
    }
}

fn exprs(out: &mut Written, list: &[Expr]) {
    out.count(list.len());
    list.iter().for_each(|e| expr(out, e));
}

fn expr(out: &mut Written, e: &Expr) {
    out.n1(tag(&e.node));
    out.n4(e.span);
    out.n2(e.ty);
    match &e.node {
        Node::Ident(name) => out.n2(*name),
        Node::This | Node::StaticAccess | Node::Literal => {}
        Node::Unary(operator, child) => {
            out.n1(*operator);
            expr(out, child);
        }
        Node::Casting(child) | Node::Sized(child) | Node::Delete(child) => expr(out, child),
        Node::Binary(a, b) | Node::Indexing(a, b) => {
            expr(out, a);
            expr(out, b);
        }
        Node::Call(callee, args) => {
            expr(out, callee);
            exprs(out, args);
        }
        Node::List(items) | Node::Obj(items) => exprs(out, items),
        Node::Field(target, name) => {
            expr(out, target);
            out.n2(*name);
        }
        Node::Intrinsic(name, args) => {
            out.n2(*name);
            exprs(out, args);
        }
    }
}

fn tag(node: &Node) -> u8 {
    match node {
        Node::Ident(_) => 1,
        Node::This => 2,
        Node::Unary(..) => 3,
        Node::Casting(_) => 4,
        Node::Binary(..) => 5,
        Node::Call(..) => 6,
        Node::List(_) => 7,
        Node::Sized(_) => 8,
        Node::Obj(_) => 9,
        Node::Delete(_) => 10,
        Node::Field(..) => 11,
        Node::Indexing(..) => 12,
        Node::StaticAccess => 13,
        Node::Intrinsic(..) => 14,
        Node::Literal => 15,
    }
}
