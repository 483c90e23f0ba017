//! The tree of an image: tables, entry and body as document 01 lists them, names and types by number.

/// Where something stands: a byte offset in an image or in a text. Trees are compared without it.
#[derive(Clone, Copy, Debug)]
pub struct Place(pub usize);

impl PartialEq for Place {
    fn eq(&self, _: &Place) -> bool {
        true
    }
}

pub type Name = u16;
pub type Ty = u16;
pub type Shape = u16;
pub type Span = u32;

/// The words of a modifier's byte; an entry's byte is 0 or one more than it.
pub const MODIFIERS: [&str; 4] = ["static", "const", "mutable", "consuming"];

/// The words of a unary's byte. Byte 0 has no operator: mod.rs looks through it.
pub const OPERATORS: [&str; 5] = ["noop", "-", "!", "&", "*"];

#[derive(Clone, Debug, PartialEq)]
pub struct Image {
    pub names: Table<NameRow>,
    pub types: Table<TypeRow>,
    pub structs: Table<Struct>,
    pub globals: Table<Global>,
    pub entry: Entry,
    pub body: Block,
}

#[derive(Clone, Debug, PartialEq)]
pub struct Table<T> {
    pub place: Place,
    pub rows: Vec<T>,
}

#[derive(Clone, Debug, PartialEq)]
pub struct NameRow {
    pub place: Place,
    pub bytes: Vec<u8>,
}

#[derive(Clone, Debug, PartialEq)]
pub struct TypeRow {
    pub place: Place,
    pub ty: Type,
}

#[derive(Clone, Copy, Debug, PartialEq)]
pub enum Type {
    Plain,
    Named(Name),
    Generic(Name, Shape),
    InlineArray(Ty),
    Pointer(Ty),
}

#[derive(Clone, Debug, PartialEq)]
pub struct Struct {
    pub place: Place,
    pub name: Name,
    pub destructor: bool,
    pub shape: Shape,
    pub methods: Vec<Method>,
}

#[derive(Clone, Debug, PartialEq)]
pub struct Method {
    pub place: Place,
    pub name: Name,
    pub modifier: u8,
}

#[derive(Clone, Debug, PartialEq)]
pub struct Global {
    pub place: Place,
    pub name: Name,
    pub span: Span,
}

/// `this` is the type of `this`; it is 0 without a receiver and for a static one.
#[derive(Clone, Debug, PartialEq)]
pub struct Entry {
    pub place: Place,
    pub receiver: u8,
    pub this: Ty,
    pub parameters: Vec<Parameter>,
}

#[derive(Clone, Debug, PartialEq)]
pub struct Parameter {
    pub place: Place,
    pub name: Name,
    pub ty: Ty,
}

#[derive(Clone, Debug, PartialEq)]
pub struct Block {
    pub place: Place,
    pub span: Span,
    pub statements: Vec<Statement>,
}

/// The span of a Block is that of its block: the tag has none of its own.
#[derive(Clone, Debug, PartialEq)]
pub struct Statement {
    pub place: Place,
    pub span: Span,
    pub kind: Kind,
}

#[derive(Clone, Debug, PartialEq)]
pub enum Kind {
    Block(Block),
    Return(Option<Expr>, Ty),
    Expr(Expr),
    Let(Name, Ty, Expr),
    Const(Name, Ty, Expr),
    Assign(Expr, Expr, Ty),
    IfElse(Expr, Block, Option<Block>),
    While(Expr, Block),
    Break,
    Continue,
}

#[derive(Clone, Debug, PartialEq)]
pub struct Expr {
    pub place: Place,
    pub span: Span,
    pub ty: Ty,
    pub node: Node,
}

#[derive(Clone, Debug, PartialEq)]
pub enum Node {
    Ident(Name),
    This,
    Unary(u8, Box<Expr>),
    Casting(Box<Expr>),
    Binary(Box<Expr>, Box<Expr>),
    Call(Box<Expr>, Vec<Expr>),
    List(Vec<Expr>),
    ListLiteralWithSize(Box<Expr>),
    Obj(Vec<Expr>),
    Delete(Box<Expr>),
    FieldAccess(Box<Expr>, Name),
    Indexing(Box<Expr>, Box<Expr>),
    StaticAccess,
    Intrinsic(Name, Vec<Expr>),
    Literal,
}

/// mod.rs's `strip_noop_unary`.
pub fn looked_through(mut e: &Expr) -> &Expr {
    while let Node::Unary(0, child) = &e.node {
        e = child;
    }
    e
}
