//! The text of an image.

use crate::lex::{is_identifier, RESERVED};
use crate::tree::*;

/// Lines are broken at lists once they are longer than this.
const WIDTH: usize = 110;
/// Lists shorter than this stay on one line.
const SHORT_LIST: usize = 30;
const INDENT: &str = "    ";

/// A name as it is written: bare if it is an identifier and no reserved word, else quoted.
pub fn name_text(bytes: &[u8]) -> String {
    match std::str::from_utf8(bytes) {
        Ok(word) if is_identifier(bytes) && !RESERVED.contains(&word) => word.to_string(),
        _ => quoted(bytes),
    }
}

fn quoted(bytes: &[u8]) -> String {
    let mut text = String::from("\"");
    for &b in bytes {
        match b {
            b'"' | b'\\' => text.extend(['\\', b.into()]),
            b' '..=b'~' => text.push(b.into()),
            _ => text += &format!("\\x{b:02x}"),
        }
    }
    text + "\""
}

/// A type as its row defines it; `refs` has the lower types as they are written elsewhere.
pub fn type_form(ty: Type, name: &dyn Fn(Name) -> String, refs: &[String]) -> String {
    match ty {
        Type::Plain => "plain".into(),
        Type::Named(n) => name(n),
        Type::Generic(n, shape) => format!("{}<shape {shape}>", name(n)),
        Type::InlineArray(inner) => format!("[{}]", refs[usize::from(inner)]),
        Type::Pointer(inner) => format!("*{}", refs[usize::from(inner)]),
    }
}

/// Every type as it is written outside its row: its form, and its number if a lower type has the same form.
pub fn type_refs(types: &[Type], name: &dyn Fn(Name) -> String) -> Vec<String> {
    let mut refs = vec![];
    for (number, ty) in types.iter().enumerate() {
        let form = type_form(*ty, name, &refs);
        refs.push(match ty {
            _ if !types[..number].contains(ty) => form,
            Type::Pointer(_) => format!("({form})#{number}"),
            _ => format!("{form}#{number}"),
        });
    }
    refs
}

/// A run of text, or items that may be put on lines of their own.
enum Piece {
    Text(String),
    Items(Vec<Vec<Piece>>, &'static str),
}
use Piece::{Items, Text};

fn flat(pieces: &[Piece]) -> String {
    let mut out = String::new();
    put_flat(pieces, &mut out);
    out
}

fn put_flat(pieces: &[Piece], out: &mut String) {
    for piece in pieces {
        match piece {
            Text(text) => out.push_str(text),
            Items(items, separator) => put_items(items, separator, out),
        }
    }
}

fn put_items(items: &[Vec<Piece>], separator: &str, out: &mut String) {
    for (i, item) in items.iter().enumerate() {
        if i > 0 {
            out.push_str(separator);
            out.push(' ');
        }
        put_flat(item, out);
    }
}

// The lines of some pieces: one if it fits, else one for each item of a long list.
fn lines_of(pieces: &[Piece], room: usize) -> Vec<String> {
    let whole = flat(pieces);
    if whole.len() <= room {
        return vec![whole];
    }
    let mut lines = vec![String::new()];
    for piece in pieces {
        let text = flat(std::slice::from_ref(piece));
        match piece {
            Items(items, separator) if text.len() > SHORT_LIST => break_items(&mut lines, items, separator, room),
            _ => *lines.last_mut().unwrap() += &text,
        }
    }
    lines
}

fn break_items(lines: &mut Vec<String>, items: &[Vec<Piece>], separator: &str, room: usize) {
    for (i, item) in items.iter().enumerate() {
        let inner = lines_of(item, room.saturating_sub(INDENT.len()));
        lines.extend(inner.iter().map(|line| format!("{INDENT}{line}")));
        if i + 1 < items.len() {
            *lines.last_mut().unwrap() += separator;
        }
    }
    lines.push(String::new());
}

/// Writes the parts of one image; each line begins with a mark, empty but in a listing of differences.
pub struct Printer<'a> {
    image: &'a Image,
    types: Vec<String>,
    offsets: bool,
    pub out: String,
}

/// The text of an image of so many bytes, with the byte offsets of statements as comments if asked.
pub fn image_text(image: &Image, total: usize, offsets: bool) -> String {
    let mut p = Printer::new(image, offsets);
    p.line("", 0, &format!("image version 1 // {total} bytes, length {}", total - 4));
    p.tables();
    p.entry();
    p.open_body("", &image.body);
    image.body.statements.iter().for_each(|s| p.statement("", 1, s));
    p.line("", 0, "}");
    p.out
}

impl<'a> Printer<'a> {
    pub fn new(image: &'a Image, offsets: bool) -> Printer<'a> {
        let rows: Vec<Type> = image.types.rows.iter().map(|row| row.ty).collect();
        let types = type_refs(&rows, &|n| row_name(image, n));
        Printer { image, types, offsets, out: String::new() }
    }

    pub fn line(&mut self, mark: &str, depth: usize, text: &str) {
        self.out += &format!("{mark}{}{text}\n", INDENT.repeat(depth));
    }

    fn name(&self, name: Name) -> String {
        row_name(self.image, name)
    }

    fn tables(&mut self) {
        let image = self.image;
        let names = image.names.rows.iter().enumerate().map(|(i, row)| format!("{i} {}", name_text(&row.bytes)));
        self.table("names", names.collect());
        let form = |ty| type_form(ty, &|n| row_name(image, n), &self.types);
        let types = image.types.rows.iter().enumerate().map(|(i, row)| format!("{i} {}", form(row.ty)));
        let types = types.collect();
        self.table("types", types);
        let structs = image.structs.rows.iter().flat_map(|s| self.strukt(s)).collect();
        self.table("structs", structs);
        let globals = image.globals.rows.iter().map(|g| format!("{} @{};", self.name(g.name), g.span)).collect();
        self.table("globals", globals);
    }

    fn table(&mut self, word: &str, rows: Vec<String>) {
        self.out += "\n";
        self.line("", 0, &format!("{word} {{"));
        rows.iter().for_each(|row| self.line("", 1, row));
        self.line("", 0, "}");
    }

    fn strukt(&self, s: &Struct) -> Vec<String> {
        let destructor = if s.destructor { " destructor" } else { "" };
        let shape = if s.shape > 0 { format!(" shape {}", s.shape) } else { String::new() };
        let head = format!("{}{destructor}{shape}", self.name(s.name));
        if s.methods.is_empty() {
            return vec![head + ";"];
        }
        let method = |m: &Method| format!("{INDENT}{} {};", MODIFIERS[usize::from(m.modifier)], self.name(m.name));
        let methods = s.methods.iter().map(method);
        [head + " {"].into_iter().chain(methods).chain(["}".to_string()]).collect()
    }

    fn entry(&mut self) {
        let entry = &self.image.entry;
        let receiver = match entry.receiver {
            0 => "no receiver".to_string(),
            1 => "static".to_string(),
            n => format!("{} this{}", MODIFIERS[usize::from(n) - 1], self.of_type(": ", entry.this)),
        };
        let parameters = entry.parameters.iter().map(|p| vec![Text(self.name(p.name) + &self.of_type(": ", p.ty))]);
        let pieces = [Text(format!("entry {receiver} (")), Items(parameters.collect(), ","), Text(")".into())];
        self.out += "\n";
        self.lines("", 0, &pieces, String::new());
    }

    // `:type`, or nothing for type 0.
    fn of_type(&self, colon: &str, ty: Ty) -> String {
        match ty {
            0 => String::new(),
            _ => format!("{colon}{}", self.types[usize::from(ty)]),
        }
    }

    pub fn open_body(&mut self, mark: &str, body: &Block) {
        if mark.is_empty() {
            self.out += "\n";
        }
        self.line(mark, 0, &format!("body @{} {{", body.span));
    }

    fn lines(&mut self, mark: &str, depth: usize, pieces: &[Piece], comment: String) {
        let room = WIDTH - INDENT.len() * depth;
        let mut lines = lines_of(pieces, room);
        *lines.last_mut().unwrap() += &comment;
        lines.iter().for_each(|line| self.line(mark, depth, line));
    }

    pub fn statement(&mut self, mark: &str, depth: usize, s: &Statement) {
        if !has_blocks(s) {
            return self.simple(mark, depth, s);
        }
        for (i, block) in blocks(s).into_iter().enumerate() {
            self.head(mark, depth, s, i);
            block.statements.iter().for_each(|inner| self.statement(mark, depth + 1, inner));
        }
        self.line(mark, depth, "}");
    }

    // The line before a statement's first or second block.
    pub fn head(&mut self, mark: &str, depth: usize, s: &Statement, part: usize) {
        let (first, span) = (format!("@{} ", s.span), |b: &Block| format!(" @{} {{", b.span));
        let pieces = match (&s.kind, part) {
            (Kind::IfElse(_, _, Some(other)), 1) => return self.line(mark, depth, &format!("}} else{}", span(other))),
            (Kind::IfElse(condition, then, _), _) => self.around(first + "if ", condition, span(then)),
            (Kind::While(condition, block), _) => self.around(first + "while ", condition, span(block)),
            _ => vec![Text(first + "{")],
        };
        self.lines(mark, depth, &pieces, self.comment(s));
    }

    fn simple(&mut self, mark: &str, depth: usize, s: &Statement) {
        let first = format!("@{} ", s.span);
        let local = |word: &str, name: &Name, ty: &Ty| format!("{first}{word} {}{} = ", self.name(*name), self.of_type(": ", *ty));
        let end = || ";".to_string();
        let pieces = match &s.kind {
            Kind::Return(value, ty) => {
                let word = format!("{first}return{}", self.of_type(":", *ty));
                value.as_ref().map_or(vec![Text(word.clone() + ";")], |e| self.around(word + " ", e, end()))
            }
            Kind::Expr(e) => self.around(first, e, end()),
            Kind::Let(name, ty, value) => self.around(local("let", name, ty), value, end()),
            Kind::Const(name, ty, value) => self.around(local("const", name, ty), value, end()),
            Kind::Assign(destination, value, ty) => {
                let equals = format!(" ={} ", self.of_type(":", *ty));
                let mut pieces = self.around(first, destination, equals);
                pieces.extend(self.around(String::new(), value, end()));
                pieces
            }
            Kind::Break => vec![Text(first + "break;")],
            Kind::Continue => vec![Text(first + "continue;")],
            Kind::Block(_) | Kind::IfElse(..) | Kind::While(..) => vec![],
        };
        self.lines(mark, depth, &pieces, self.comment(s));
    }

    // The offset of a statement's tag, and that of its callee if it is a call: a warning has the latter.
    fn comment(&self, s: &Statement) -> String {
        if !self.offsets {
            return String::new();
        }
        let callee = match &s.kind {
            Kind::Expr(e) => match &looked_through(e).node {
                Node::Call(callee, _) => format!(", callee {}", callee.place.0),
                _ => String::new(),
            },
            _ => String::new(),
        };
        format!(" // byte {}{callee}", s.place.0)
    }

    fn around(&self, before: String, e: &Expr, after: String) -> Vec<Piece> {
        let mut pieces = vec![Text(before)];
        pieces.extend(self.expr(e));
        pieces.push(Text(after));
        pieces
    }

    // `@span:type`
    fn suffix(&self, e: &Expr) -> String {
        format!("@{}{}", e.span, self.of_type(":", e.ty))
    }

    fn expr(&self, e: &Expr) -> Vec<Piece> {
        let suffix = self.suffix(e);
        let word = |word: &str| vec![Text(format!("{word}{suffix}"))];
        match &e.node {
            Node::Ident(name) => word(&self.name(*name)),
            Node::This => word("this"),
            Node::StaticAccess => word("static"),
            Node::Literal => word("literal"),
            Node::Unary(operator, child) => self.around(format!("{}{suffix} ", OPERATORS[usize::from(*operator)]), child, String::new()),
            Node::Delete(child) => self.around(format!("delete{suffix} "), child, String::new()),
            Node::Casting(child) => self.around("(".into(), child, format!(" as {})@{}", self.types[usize::from(e.ty)], e.span)),
            Node::Binary(left, right) => {
                let sides = vec![self.expr(left), self.expr(right)];
                vec![Text("(".into()), Items(sides, " op"), Text(format!("){suffix}"))]
            }
            Node::Call(callee, arguments) => self.listed(self.target(callee), "(", arguments, format!("){suffix}")),
            Node::List(items) => self.listed(vec![], "[", items, format!("]{suffix}")),
            Node::ListLiteralWithSize(item) => self.around("[".into(), item, format!("; size]{suffix}")),
            Node::Obj(values) => self.listed(vec![], "obj{", values, format!("}}{suffix}")),
            Node::FieldAccess(target, name) => {
                let mut pieces = self.target(target);
                pieces.push(Text(format!(".{}{suffix}", self.name(*name))));
                pieces
            }
            Node::Indexing(target, index) => self.listed(self.target(target), "[", std::slice::from_ref(index), format!("]{suffix}")),
            Node::Intrinsic(name, arguments) => self.listed(vec![], &format!("intrinsic {}(", self.name(*name)), arguments, format!("){suffix}")),
        }
    }

    fn listed(&self, mut before: Vec<Piece>, open: &str, items: &[Expr], close: String) -> Vec<Piece> {
        before.push(Text(open.into()));
        before.push(Items(items.iter().map(|e| self.expr(e)).collect(), ","));
        before.push(Text(close));
        before
    }

    // What stands before a `.`, `(` or `[`: in parentheses if it begins with an operator.
    fn target(&self, e: &Expr) -> Vec<Piece> {
        match e.node {
            Node::Unary(..) | Node::Delete(_) => self.around("(".into(), e, ")".into()),
            _ => self.expr(e),
        }
    }
}

fn row_name(image: &Image, name: Name) -> String {
    name_text(&image.names.rows[usize::from(name)].bytes)
}

pub fn has_blocks(s: &Statement) -> bool {
    matches!(s.kind, Kind::Block(_) | Kind::IfElse(..) | Kind::While(..))
}

/// A statement's own blocks.
pub fn blocks(s: &Statement) -> Vec<&Block> {
    match &s.kind {
        Kind::Block(block) | Kind::While(_, block) => vec![block],
        Kind::IfElse(_, then, other) => [then].into_iter().chain(other).collect(),
        _ => vec![],
    }
}
