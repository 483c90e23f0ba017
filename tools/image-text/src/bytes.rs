//! Images in bytes: reading with the faults 1 to 11, and writing.

use crate::tree::*;
use std::collections::HashMap;

/// A fault's number, the byte offset where it was found, and what is wrong there.
#[derive(Clone, Debug, PartialEq)]
pub struct Fault {
    pub number: u8,
    pub offset: usize,
    pub reason: String,
}

type Read<T> = Result<T, Fault>;

#[derive(Clone, Copy)]
pub struct Limits {
    size: usize,
    expression_depth: usize,
}

/// Document 01's limits.
pub const SUBMITTED: Limits = Limits { size: 65_536, expression_depth: 24 };

/// A returned image may be longer, and the delete round an unused result may be one deeper.
pub const RETURNED: Limits = Limits { size: u32::MAX as usize, expression_depth: 25 };

const BLOCK_DEPTH: usize = 12;
const RUN_OUT: &str = "the bytes run out";

struct Reader<'a> {
    bytes: &'a [u8],
    at: usize,
    // The number of the faults of the part being read.
    fault: u8,
    expression_depth: usize,
    names: usize,
    types: Vec<Type>,
}

pub fn read_image(bytes: &[u8], limits: Limits) -> Result<Image, Fault> {
    let mut r = Reader { bytes, at: 0, fault: 1, expression_depth: limits.expression_depth, names: 0, types: vec![] };
    r.head(limits.size)?;
    let names = r.names()?;
    let types = r.types()?;
    let structs = r.structs(&names.rows)?;
    let globals = r.globals()?;
    let entry = r.entry()?;
    r.fault = 8;
    let body = r.block(1)?;
    r.end()?;
    Ok(Image { names, types, structs, globals, entry, body })
}

impl<'a> Reader<'a> {
    fn fail<T>(&self, offset: usize, reason: impl Into<String>) -> Read<T> {
        Err(Fault { number: self.fault, offset, reason: reason.into() })
    }

    fn head(&mut self, size: usize) -> Read<()> {
        let total = self.bytes.len();
        if total < 5 {
            return self.fail(0, format!("{total} bytes, an image has at least 5"));
        }
        if total > size {
            return self.fail(0, format!("{total} bytes, an image has at most {size}"));
        }
        let length = self.number(4)? as usize;
        if length != total - 4 {
            return self.fail(0, format!("the length is {length}, but {} bytes follow it", total - 4));
        }
        self.fault = 2;
        match self.number(1)? {
            1 => Ok(()),
            version => self.fail(4, format!("version {version}, not 1")),
        }
    }

    fn take(&mut self, n: usize) -> Read<&'a [u8]> {
        match self.bytes.get(self.at..self.at + n) {
            Some(bytes) => {
                self.at += n;
                Ok(bytes)
            }
            None => self.fail(self.at, RUN_OUT),
        }
    }

    fn number(&mut self, width: usize) -> Read<u32> {
        Ok(self.take(width)?.iter().fold(0, |n, b| n << 8 | u32::from(*b)))
    }

    fn byte(&mut self) -> Read<u8> {
        Ok(self.take(1)?[0])
    }

    fn short(&mut self) -> Read<u16> {
        Ok(self.number(2)? as u16)
    }

    // A count of a table, with the least and the most.
    fn count(&mut self, least: u16, most: u16, what: &str) -> Read<u16> {
        let offset = self.at;
        match self.short()? {
            0 if least > 0 => self.fail(offset, format!("no {what}")),
            n if n > most => self.fail(offset, format!("{n} {what}, at most {most}")),
            n => Ok(n),
        }
    }

    // A byte of at most that value.
    fn choice(&mut self, most: u8, what: &str) -> Read<u8> {
        let offset = self.at;
        match self.byte()? {
            n if n > most => self.fail(offset, format!("unknown {what} {n}")),
            n => Ok(n),
        }
    }

    fn flag(&mut self) -> Read<bool> {
        Ok(self.choice(1, "flag")? == 1)
    }

    // A number of a row in a table of that length.
    fn row(&mut self, length: usize, what: &str) -> Read<u16> {
        let offset = self.at;
        match self.short()? {
            n if usize::from(n) >= length => self.fail(offset, format!("{what} {n} is outside its table of {length}")),
            n => Ok(n),
        }
    }

    fn name(&mut self) -> Read<Name> {
        self.row(self.names, "name")
    }

    fn ty(&mut self) -> Read<Ty> {
        self.row(self.types.len(), "type")
    }

    fn names(&mut self) -> Read<Table<NameRow>> {
        self.fault = 3;
        let place = Place(self.at);
        let mut rows: Vec<NameRow> = vec![];
        let mut seen = HashMap::new();
        for number in 0..self.count(1, 512, "names")? {
            let offset = self.at;
            let bytes = self.name_bytes()?;
            if let Some(other) = seen.insert(bytes, number) {
                return self.fail(offset, format!("name {number} is name {other} again"));
            }
            if number == 0 && bytes != b"this" {
                return self.fail(offset, "name 0 is not `this`");
            }
            rows.push(NameRow { place: Place(offset), bytes: bytes.to_vec() });
        }
        self.names = rows.len();
        Ok(Table { place, rows })
    }

    fn name_bytes(&mut self) -> Read<&'a [u8]> {
        let offset = self.at;
        match self.byte()? {
            0 => self.fail(offset, "an empty name"),
            n if n > 64 => self.fail(offset, format!("a name of {n} bytes, at most 64")),
            n => self.take(n.into()),
        }
    }

    fn types(&mut self) -> Read<Table<TypeRow>> {
        self.fault = 4;
        let place = Place(self.at);
        let mut rows: Vec<TypeRow> = vec![];
        for number in 0..self.count(1, 256, "types")? {
            let offset = self.at;
            let ty = self.type_row()?;
            if number == 0 && ty != Type::Plain {
                return self.fail(offset, "type 0 is not plain");
            }
            rows.push(TypeRow { place: Place(offset), ty });
            self.types.push(ty);
        }
        Ok(Table { place, rows })
    }

    fn type_row(&mut self) -> Read<Type> {
        Ok(match self.choice(4, "kind of type")? {
            0 => Type::Plain,
            1 => Type::Named(self.name()?),
            2 => Type::Generic(self.name()?, self.short()?),
            3 => Type::InlineArray(self.lower()?),
            _ => Type::Pointer(self.lower()?),
        })
    }

    // A type below the one being read.
    fn lower(&mut self) -> Read<Ty> {
        let (offset, number) = (self.at, self.types.len());
        match self.short()? {
            n if usize::from(n) >= number => self.fail(offset, format!("type {number} needs a lower type, not {n}")),
            n => Ok(n),
        }
    }

    fn structs(&mut self, names: &[NameRow]) -> Read<Table<Struct>> {
        self.fault = 5;
        let place = Place(self.at);
        let mut rows: Vec<Struct> = vec![];
        for number in 0..self.count(0, 64, "structs")? {
            let offset = self.at;
            let name = self.name()?;
            let bytes = |n: Name| &names[usize::from(n)].bytes;
            if rows.last().is_some_and(|last| bytes(last.name) >= bytes(name)) {
                return self.fail(offset, format!("struct {number} does not rise by name"));
            }
            let (destructor, shape, methods) = (self.flag()?, self.short()?, self.methods()?);
            rows.push(Struct { place: Place(offset), name, destructor, shape, methods });
        }
        Ok(Table { place, rows })
    }

    fn methods(&mut self) -> Read<Vec<Method>> {
        let mut methods: Vec<Method> = vec![];
        for _ in 0..self.count(0, 32, "methods")? {
            let offset = self.at;
            let name = self.name()?;
            if methods.iter().any(|m| m.name == name) {
                return self.fail(offset, "a method's name twice in one struct");
            }
            methods.push(Method { place: Place(offset), name, modifier: self.choice(3, "modifier")? });
        }
        Ok(methods)
    }

    fn globals(&mut self) -> Read<Table<Global>> {
        self.fault = 6;
        let place = Place(self.at);
        let mut rows: Vec<Global> = vec![];
        for _ in 0..self.count(0, 64, "globals")? {
            let offset = self.at;
            let name = self.name()?;
            if rows.iter().any(|g| g.name == name) {
                return self.fail(offset, "a global's name twice");
            }
            rows.push(Global { place: Place(offset), name, span: self.number(4)? });
        }
        Ok(Table { place, rows })
    }

    fn entry(&mut self) -> Read<Entry> {
        self.fault = 7;
        let place = Place(self.at);
        let receiver = self.choice(4, "receiver")?;
        let this = if receiver >= 2 { self.ty()? } else { 0 };
        let mut parameters = vec![];
        for _ in 0..self.count(0, 16, "parameters")? {
            parameters.push(Parameter { place: Place(self.at), name: self.name()?, ty: self.ty()? });
        }
        Ok(Entry { place, receiver, this, parameters })
    }

    fn end(&self) -> Read<()> {
        match self.bytes.len() - self.at {
            0 => Ok(()),
            n => Err(Fault { number: 10, offset: self.at, reason: format!("bytes left over: {n}") }),
        }
    }

    fn too_deep<T>(&self, what: &str, limit: usize) -> Read<T> {
        Err(Fault { number: 9, offset: self.at, reason: format!("{what} deeper than {limit}") })
    }

    fn block(&mut self, depth: usize) -> Read<Block> {
        if depth > BLOCK_DEPTH {
            return self.too_deep("a block", BLOCK_DEPTH);
        }
        let place = Place(self.at);
        let span = self.number(4)?;
        let count = self.short()?;
        let statements = (0..count).map(|_| self.statement(depth)).collect::<Read<_>>()?;
        Ok(Block { place, span, statements })
    }

    fn statement(&mut self, depth: usize) -> Read<Statement> {
        let place = self.at;
        let tag = self.byte()?;
        if tag == 1 {
            let block = self.block(depth + 1)?;
            return Ok(Statement { place: Place(place), span: block.span, kind: Kind::Block(block) });
        }
        if !(2..=10).contains(&tag) {
            return self.fail(place, format!("unknown tag {tag} of a statement"));
        }
        let span = self.number(4)?;
        Ok(Statement { place: Place(place), span, kind: self.kind(tag, depth)? })
    }

    fn kind(&mut self, tag: u8, depth: usize) -> Read<Kind> {
        Ok(match tag {
            2 => {
                let value = if self.flag()? { Some(self.expr(1)?) } else { None };
                Kind::Return(value, self.ty()?)
            }
            3 => Kind::Expr(self.expr(1)?),
            4 => Kind::Let(self.name()?, self.ty()?, self.expr(1)?),
            5 => Kind::Const(self.name()?, self.ty()?, self.expr(1)?),
            6 => Kind::Assign(self.expr(1)?, self.expr(1)?, self.ty()?),
            7 => {
                let (condition, then) = (self.expr(1)?, self.block(depth + 1)?);
                let other = if self.flag()? { Some(self.block(depth + 1)?) } else { None };
                Kind::IfElse(condition, then, other)
            }
            8 => Kind::While(self.expr(1)?, self.block(depth + 1)?),
            9 => Kind::Break,
            _ => Kind::Continue,
        })
    }

    fn expr(&mut self, depth: usize) -> Read<Expr> {
        if depth > self.expression_depth {
            return self.too_deep("an expression", self.expression_depth);
        }
        let place = self.at;
        let tag = self.byte()?;
        if !(1..=15).contains(&tag) {
            return self.fail(place, format!("unknown tag {tag} of an expression"));
        }
        let span = self.number(4)?;
        let ty = self.ty()?;
        if tag == 10 && ty != 0 {
            return self.fail(place + 5, format!("a Delete's type is {ty}, not 0"));
        }
        let node = self.node(tag, depth + 1)?;
        if matches!(&node, Node::Call(callee, _) if self.generic_receiver(callee)) {
            return Err(Fault { number: 11, offset: place, reason: "a call with a generic receiver".into() });
        }
        Ok(Expr { place: Place(place), span, ty, node })
    }

    fn node(&mut self, tag: u8, depth: usize) -> Read<Node> {
        Ok(match tag {
            1 => Node::Ident(self.name()?),
            2 => Node::This,
            3 => Node::Unary(self.choice(4, "operator")?, self.child(depth)?),
            4 => Node::Casting(self.child(depth)?),
            5 => Node::Binary(self.child(depth)?, self.child(depth)?),
            6 => Node::Call(self.child(depth)?, self.items(depth)?),
            7 => Node::List(self.items(depth)?),
            8 => Node::ListLiteralWithSize(self.child(depth)?),
            9 => Node::Obj(self.items(depth)?),
            10 => Node::Delete(self.child(depth)?),
            11 => Node::FieldAccess(self.child(depth)?, self.name()?),
            12 => Node::Indexing(self.child(depth)?, self.child(depth)?),
            13 => Node::StaticAccess,
            14 => Node::Intrinsic(self.name()?, self.items(depth)?),
            _ => Node::Literal,
        })
    }

    fn child(&mut self, depth: usize) -> Read<Box<Expr>> {
        Ok(Box::new(self.expr(depth)?))
    }

    fn items(&mut self, depth: usize) -> Read<Vec<Expr>> {
        let count = self.short()?;
        (0..count).map(|_| self.expr(depth)).collect()
    }

    // Fault 11 asks for the type of the target itself, not of the Ident that is found below it.
    fn generic_receiver(&self, callee: &Expr) -> bool {
        let Node::FieldAccess(target, _) = &looked_through(callee).node else { return false };
        let mut ty = self.types[usize::from(target.ty)];
        while let Type::Pointer(to) = ty {
            ty = self.types[usize::from(to)];
        }
        matches!(looked_through(target).node, Node::Ident(_)) && matches!(ty, Type::Generic(..))
    }
}

/// The bytes of a tree, and the place in the tree that each comes from.
pub struct Written {
    pub bytes: Vec<u8>,
    places: Vec<usize>,
}

impl Written {
    /// The place of what stands at an offset, or at the end.
    pub fn place(&self, offset: usize) -> usize {
        self.places.get(offset).or(self.places.last()).copied().unwrap_or(0)
    }
}

struct Writer {
    out: Written,
    place: usize,
    // The first list that is too long for its count.
    failed: Option<(usize, String)>,
}

/// The bytes of a tree; or a place and what is wrong there, if a count or the length does not fit.
pub fn write_image(image: &Image) -> Result<Written, (usize, String)> {
    let mut w = Writer { out: Written { bytes: vec![], places: vec![] }, place: 0, failed: None };
    w.put(&[0, 0, 0, 0, 1]);
    w.tables(image);
    w.entry(&image.entry);
    w.block(&image.body);
    let length = u32::try_from(w.out.bytes.len() - 4).map_err(|_| (0, "the image is too long".to_string()))?;
    w.out.bytes[..4].copy_from_slice(&length.to_be_bytes());
    w.failed.map_or(Ok(w.out), Err)
}

impl Writer {
    fn put(&mut self, bytes: &[u8]) {
        self.out.bytes.extend(bytes);
        self.out.places.resize(self.out.bytes.len(), self.place);
    }

    fn short(&mut self, n: u16) {
        self.put(&n.to_be_bytes());
    }

    fn span(&mut self, n: u32) {
        self.put(&n.to_be_bytes());
    }

    fn count(&mut self, n: usize) {
        if n > 65_535 && self.failed.is_none() {
            self.failed = Some((self.place, format!("a list of {n}: a count takes two bytes")));
        }
        self.short(n as u16);
    }

    fn tables(&mut self, image: &Image) {
        self.rows(&image.names, |w, name| {
            w.place = name.place.0;
            w.put(&[name.bytes.len() as u8]);
            w.put(&name.bytes);
        });
        self.rows(&image.types, |w, row| {
            w.place = row.place.0;
            w.ty(row.ty);
        });
        self.rows(&image.structs, Writer::strukt);
        self.rows(&image.globals, |w, global| {
            w.place = global.place.0;
            w.short(global.name);
            w.span(global.span);
        });
    }

    fn rows<T>(&mut self, table: &Table<T>, row: impl Fn(&mut Writer, &T)) {
        self.place = table.place.0;
        self.count(table.rows.len());
        table.rows.iter().for_each(|r| row(self, r));
    }

    fn ty(&mut self, ty: Type) {
        let (kind, numbers) = match ty {
            Type::Plain => (0, vec![]),
            Type::Named(name) => (1, vec![name]),
            Type::Generic(name, shape) => (2, vec![name, shape]),
            Type::InlineArray(inner) => (3, vec![inner]),
            Type::Pointer(inner) => (4, vec![inner]),
        };
        self.put(&[kind]);
        numbers.into_iter().for_each(|n| self.short(n));
    }

    fn strukt(&mut self, s: &Struct) {
        self.place = s.place.0;
        self.short(s.name);
        self.put(&[s.destructor.into()]);
        self.short(s.shape);
        self.count(s.methods.len());
        for method in &s.methods {
            self.place = method.place.0;
            self.short(method.name);
            self.put(&[method.modifier]);
        }
    }

    fn entry(&mut self, entry: &Entry) {
        self.place = entry.place.0;
        self.put(&[entry.receiver]);
        if entry.receiver >= 2 {
            self.short(entry.this);
        }
        self.count(entry.parameters.len());
        for parameter in &entry.parameters {
            self.place = parameter.place.0;
            self.short(parameter.name);
            self.short(parameter.ty);
        }
    }

    fn block(&mut self, block: &Block) {
        self.place = block.place.0;
        self.span(block.span);
        self.count(block.statements.len());
        block.statements.iter().for_each(|s| self.statement(s));
    }

    fn statement(&mut self, s: &Statement) {
        self.place = s.place.0;
        if let Kind::Block(block) = &s.kind {
            self.put(&[1]);
            return self.block(block);
        }
        self.put(&[statement_tag(&s.kind)]);
        self.span(s.span);
        match &s.kind {
            Kind::Return(value, ty) => {
                self.put(&[value.is_some().into()]);
                value.iter().for_each(|e| self.expr(e));
                self.short(*ty);
            }
            Kind::Expr(e) => self.expr(e),
            Kind::Let(name, ty, value) | Kind::Const(name, ty, value) => {
                self.short(*name);
                self.short(*ty);
                self.expr(value);
            }
            Kind::Assign(destination, value, ty) => {
                self.expr(destination);
                self.expr(value);
                self.short(*ty);
            }
            Kind::IfElse(condition, then, other) => {
                self.expr(condition);
                self.block(then);
                self.put(&[other.is_some().into()]);
                other.iter().for_each(|b| self.block(b));
            }
            Kind::While(condition, block) => {
                self.expr(condition);
                self.block(block);
            }
            Kind::Block(_) | Kind::Break | Kind::Continue => {}
        }
    }

    fn expr(&mut self, e: &Expr) {
        self.place = e.place.0;
        self.put(&[expression_tag(&e.node)]);
        self.span(e.span);
        self.short(e.ty);
        match &e.node {
            Node::Ident(name) => self.short(*name),
            Node::Unary(operator, child) => {
                self.put(&[*operator]);
                self.expr(child);
            }
            Node::Casting(child) | Node::ListLiteralWithSize(child) | Node::Delete(child) => self.expr(child),
            Node::Binary(left, right) | Node::Indexing(left, right) => {
                self.expr(left);
                self.expr(right);
            }
            Node::Call(callee, arguments) => {
                self.expr(callee);
                self.items(arguments);
            }
            Node::List(items) | Node::Obj(items) => self.items(items),
            Node::FieldAccess(target, name) => {
                self.expr(target);
                self.short(*name);
            }
            Node::Intrinsic(name, arguments) => {
                self.short(*name);
                self.items(arguments);
            }
            Node::This | Node::StaticAccess | Node::Literal => {}
        }
    }

    fn items(&mut self, items: &[Expr]) {
        self.count(items.len());
        items.iter().for_each(|e| self.expr(e));
    }
}

fn statement_tag(kind: &Kind) -> u8 {
    match kind {
        Kind::Block(..) => 1,
        Kind::Return(..) => 2,
        Kind::Expr(..) => 3,
        Kind::Let(..) => 4,
        Kind::Const(..) => 5,
        Kind::Assign(..) => 6,
        Kind::IfElse(..) => 7,
        Kind::While(..) => 8,
        Kind::Break => 9,
        Kind::Continue => 10,
    }
}

fn expression_tag(node: &Node) -> u8 {
    match node {
        Node::Ident(..) => 1,
        Node::This => 2,
        Node::Unary(..) => 3,
        Node::Casting(..) => 4,
        Node::Binary(..) => 5,
        Node::Call(..) => 6,
        Node::List(..) => 7,
        Node::ListLiteralWithSize(..) => 8,
        Node::Obj(..) => 9,
        Node::Delete(..) => 10,
        Node::FieldAccess(..) => 11,
        Node::Indexing(..) => 12,
        Node::StaticAccess => 13,
        Node::Intrinsic(..) => 14,
        Node::Literal => 15,
    }
}
