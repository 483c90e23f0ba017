//! Reading a text into a tree.

use crate::lex::{self, Token, RESERVED};
use crate::print::{name_text, type_form, type_refs};
use crate::tree::*;
use std::collections::HashMap;
use std::fmt;

/// What is wrong in a text, and where: lines and columns count from 1, columns in characters.
#[derive(Clone, Debug, PartialEq)]
pub struct Mistake {
    pub line: usize,
    pub column: usize,
    pub reason: String,
}

impl Mistake {
    pub fn at(text: &[u8], place: usize, reason: impl Into<String>) -> Mistake {
        let before = &text[..place.min(text.len())];
        let start = before.iter().rposition(|b| *b == b'\n').map_or(0, |n| n + 1);
        let line = 1 + before.iter().filter(|b| **b == b'\n').count();
        // The later bytes of a UTF-8 character don't count.
        let column = 1 + before[start..].iter().filter(|b| *b & 0xc0 != 0x80).count();
        Mistake { line, column, reason: reason.into() }
    }
}

impl fmt::Display for Mistake {
    fn fmt(&self, f: &mut fmt::Formatter) -> fmt::Result {
        write!(f, "line {}, column {}: {}", self.line, self.column, self.reason)
    }
}

// A place and what is wrong there.
type Parsed<T> = Result<T, (usize, String)>;

// The parser gives up beyond these, well above document 01's limits, so that no text exhausts the stack.
const NESTING: usize = 64;
const CHAIN: usize = 32;
const TYPE_NESTING: usize = 256;

struct Parser<'a> {
    text: &'a [u8],
    token: Token,
    // Where the token begins and ends.
    start: usize,
    end: usize,
    names: Vec<Vec<u8>>,
    numbers: HashMap<Vec<u8>, Name>,
    types: Vec<Type>,
    nesting: usize,
    type_nesting: usize,
}

pub fn parse(text: &[u8]) -> Result<Image, Mistake> {
    let (names, numbers) = (vec![], HashMap::new());
    let types = vec![];
    let mut p = Parser { text, token: Token::End, start: 0, end: 0, names, numbers, types, nesting: 0, type_nesting: 0 };
    p.image().map_err(|(place, reason)| Mistake::at(text, place, reason))
}

fn shown(token: &Token) -> String {
    match token {
        Token::Word(word) => format!("`{word}`"),
        Token::Quoted(bytes) => name_text(bytes),
        Token::Number(n) => format!("`{n}`"),
        Token::Mark(mark) => format!("`{mark}`"),
        Token::End => "the end of the text".into(),
    }
}

impl Parser<'_> {
    fn advance(&mut self) -> Parsed<()> {
        self.start = lex::skip_blanks(self.text, self.end);
        (self.token, self.end) = lex::token(self.text, self.start)?;
        Ok(())
    }

    fn fail<T>(&self, reason: impl Into<String>) -> Parsed<T> {
        Err((self.start, reason.into()))
    }

    fn expected<T>(&self, what: &str) -> Parsed<T> {
        self.fail(format!("expected {what}, found {}", shown(&self.token)))
    }

    fn is(&self, mark: char) -> bool {
        self.token == Token::Mark(mark)
    }

    fn is_word(&self, word: &str) -> bool {
        matches!(&self.token, Token::Word(w) if w == word)
    }

    fn eat(&mut self, mark: char) -> Parsed<bool> {
        let found = self.is(mark);
        if found {
            self.advance()?;
        }
        Ok(found)
    }

    fn eat_word(&mut self, word: &str) -> Parsed<bool> {
        let found = self.is_word(word);
        if found {
            self.advance()?;
        }
        Ok(found)
    }

    fn expect(&mut self, mark: char) -> Parsed<()> {
        match self.eat(mark)? {
            true => Ok(()),
            false => self.expected(&format!("`{mark}`")),
        }
    }

    fn expect_word(&mut self, word: &str) -> Parsed<()> {
        match self.eat_word(word)? {
            true => Ok(()),
            false => self.expected(&format!("`{word}`")),
        }
    }

    fn number(&mut self, most: u64, what: &str) -> Parsed<u32> {
        match self.token {
            Token::Number(n) if n <= most => self.advance().map(|()| n as u32),
            Token::Number(n) => self.fail(format!("{what} {n} is above {most}")),
            _ => self.expected(&format!("the number of a {what}")),
        }
    }

    // `@span`
    fn span(&mut self) -> Parsed<Span> {
        if !self.eat('@')? {
            return self.expected("`@` and a span");
        }
        self.number(u32::MAX.into(), "span")
    }

    fn shape(&mut self) -> Parsed<Shape> {
        self.expect_word("shape")?;
        Ok(self.number(65_535, "shape")? as u16)
    }

    fn name_bytes(&mut self) -> Parsed<Vec<u8>> {
        let bytes = match &self.token {
            Token::Word(word) if RESERVED.contains(&word.as_str()) => {
                return self.fail(format!("`{word}` is a reserved word: as a name it is written \"{word}\""));
            }
            Token::Word(word) => word.clone().into_bytes(),
            Token::Quoted(bytes) => bytes.clone(),
            _ => return self.expected("a name"),
        };
        self.advance().map(|()| bytes)
    }

    // A name of the table.
    fn name(&mut self) -> Parsed<Name> {
        let start = self.start;
        let bytes = self.name_bytes()?;
        match self.numbers.get(&bytes) {
            Some(number) => Ok(*number),
            None => Err((start, format!("the table of names has no {}", name_text(&bytes)))),
        }
    }

    fn image(&mut self) -> Parsed<Image> {
        self.advance()?;
        self.expect_word("image")?;
        self.expect_word("version")?;
        if self.token != Token::Number(1) {
            return self.expected("version `1`");
        }
        self.advance()?;
        let names = self.table("names", Parser::name_row)?;
        let types = self.table("types", Parser::type_row)?;
        let structs = self.table("structs", |p, _| p.strukt())?;
        let globals = self.table("globals", |p, _| p.global())?;
        let entry = self.entry()?;
        self.expect_word("body")?;
        let body = self.block()?;
        match self.token {
            Token::End => Ok(Image { names, types, structs, globals, entry, body }),
            _ => self.expected("the end of the text"),
        }
    }

    fn table<T>(&mut self, word: &str, row: impl Fn(&mut Self, usize) -> Parsed<T>) -> Parsed<Table<T>> {
        let place = Place(self.start);
        self.expect_word(word)?;
        self.expect('{')?;
        let mut rows = vec![];
        while !self.eat('}')? {
            rows.push(row(self, rows.len())?);
        }
        Ok(Table { place, rows })
    }

    // A row may begin with its number.
    fn row_number(&mut self, number: usize) -> Parsed<()> {
        match self.token {
            Token::Number(n) if n == number as u64 => self.advance(),
            Token::Number(n) => self.fail(format!("this row has number {number}, not {n}")),
            _ => Ok(()),
        }
    }

    fn name_row(&mut self, number: usize) -> Parsed<NameRow> {
        self.row_number(number)?;
        let place = Place(self.start);
        let bytes = self.name_bytes()?;
        if bytes.is_empty() || bytes.len() > 64 {
            return Err((place.0, format!("fault 3: a name of {} bytes, not of 1 to 64", bytes.len())));
        }
        if let Some(other) = self.numbers.insert(bytes.clone(), number as Name) {
            return Err((place.0, format!("fault 3: name {number} is name {other} again")));
        }
        self.names.push(bytes.clone());
        Ok(NameRow { place, bytes })
    }

    fn type_row(&mut self, number: usize) -> Parsed<TypeRow> {
        self.row_number(number)?;
        let place = Place(self.start);
        let ty = self.type_form()?;
        self.types.push(ty);
        Ok(TypeRow { place, ty })
    }

    fn type_form(&mut self) -> Parsed<Type> {
        if self.eat_word("plain")? {
            return Ok(Type::Plain);
        }
        if self.eat('*')? {
            return Ok(Type::Pointer(self.type_ref()?));
        }
        if self.eat('[')? {
            let inner = self.type_ref()?;
            return self.expect(']').map(|()| Type::InlineArray(inner));
        }
        if !matches!(self.token, Token::Word(_) | Token::Quoted(_)) {
            return self.expected("a type");
        }
        let name = self.name()?;
        if !self.eat('<')? {
            return Ok(Type::Named(name));
        }
        let shape = self.shape()?;
        self.expect('>').map(|()| Type::Generic(name, shape))
    }

    // A type of the table, by its form and perhaps its number.
    fn type_ref(&mut self) -> Parsed<Ty> {
        let start = self.start;
        self.type_nesting += 1;
        if self.type_nesting > TYPE_NESTING {
            return self.fail(format!("a type deeper than {TYPE_NESTING}"));
        }
        let form = if self.eat('(')? {
            let inner = self.type_ref()?;
            self.expect(')')?;
            self.types[usize::from(inner)]
        } else {
            self.type_form()?
        };
        self.type_nesting -= 1;
        match self.eat('#')? {
            true => self.numbered_type(form),
            false => self.lowest_type(form, start),
        }
    }

    fn lowest_type(&self, form: Type, start: usize) -> Parsed<Ty> {
        match self.types.iter().position(|ty| *ty == form) {
            Some(number) => Ok(number as Ty),
            None => Err((start, format!("the table of types has no {}", self.type_text(form)))),
        }
    }

    fn numbered_type(&mut self, form: Type) -> Parsed<Ty> {
        let start = self.start;
        let number = self.number(65_535, "type")?;
        match self.types.get(number as usize) {
            Some(ty) if *ty == form => Ok(number as Ty),
            Some(ty) => Err((start, format!("type {number} is {}, not {}", self.type_text(*ty), self.type_text(form)))),
            None => Err((start, format!("the table of types has no type {number}"))),
        }
    }

    fn type_text(&self, form: Type) -> String {
        let name = |n: Name| name_text(&self.names[usize::from(n)]);
        type_form(form, &name, &type_refs(&self.types, &name))
    }

    // `:type`, or type 0.
    fn of_type(&mut self) -> Parsed<Ty> {
        match self.eat(':')? {
            true => self.type_ref(),
            false => Ok(0),
        }
    }

    fn strukt(&mut self) -> Parsed<Struct> {
        let place = Place(self.start);
        let name = self.name()?;
        let destructor = self.eat_word("destructor")?;
        let shape = if self.is_word("shape") { self.shape()? } else { 0 };
        let mut methods = vec![];
        if !self.eat(';')? {
            if !self.eat('{')? {
                return self.expected("`destructor`, `shape`, `;` or `{`");
            }
            while !self.eat('}')? {
                methods.push(self.method()?);
            }
        }
        Ok(Struct { place, name, destructor, shape, methods })
    }

    fn modifier(&mut self) -> Parsed<u8> {
        match MODIFIERS.iter().position(|word| self.is_word(word)) {
            Some(n) => self.advance().map(|()| n as u8),
            None => self.expected("`static`, `const`, `mutable` or `consuming`"),
        }
    }

    fn method(&mut self) -> Parsed<Method> {
        let place = Place(self.start);
        let (modifier, name) = (self.modifier()?, self.name()?);
        self.expect(';').map(|()| Method { place, name, modifier })
    }

    fn global(&mut self) -> Parsed<Global> {
        let place = Place(self.start);
        let (name, span) = (self.name()?, self.span()?);
        self.expect(';').map(|()| Global { place, name, span })
    }

    fn entry(&mut self) -> Parsed<Entry> {
        let place = Place(self.start);
        self.expect_word("entry")?;
        let receiver = self.receiver()?;
        let mut this = 0;
        if receiver >= 2 {
            self.expect_word("this")?;
            this = self.of_type()?;
        }
        self.expect('(')?;
        let parameters = self.list(')', Parser::parameter)?;
        Ok(Entry { place, receiver, this, parameters })
    }

    fn receiver(&mut self) -> Parsed<u8> {
        if self.eat_word("no")? {
            return self.expect_word("receiver").map(|()| 0);
        }
        match self.token {
            Token::Word(_) => Ok(self.modifier()? + 1),
            _ => self.expected("`no receiver`, `static`, `const`, `mutable` or `consuming`"),
        }
    }

    fn parameter(&mut self) -> Parsed<Parameter> {
        let place = Place(self.start);
        Ok(Parameter { place, name: self.name()?, ty: self.of_type()? })
    }

    // Items with commas between them, up to the closing mark; a comma may stand before that.
    fn list<T>(&mut self, close: char, item: impl Fn(&mut Self) -> Parsed<T>) -> Parsed<Vec<T>> {
        let mut items = vec![];
        while !self.eat(close)? {
            items.push(item(self)?);
            if !self.eat(',')? && !self.is(close) {
                return self.expected(&format!("`,` or `{close}`"));
            }
        }
        Ok(items)
    }

    // `@span { statements }`
    fn block(&mut self) -> Parsed<Block> {
        let place = Place(self.start);
        let span = self.span()?;
        self.rest_of_block(place, span)
    }

    fn rest_of_block(&mut self, place: Place, span: Span) -> Parsed<Block> {
        self.expect('{')?;
        self.deeper(|p| {
            let mut statements = vec![];
            while !p.eat('}')? {
                statements.push(p.statement()?);
            }
            Ok(Block { place, span, statements })
        })
    }

    fn deeper<T>(&mut self, inner: impl FnOnce(&mut Self) -> Parsed<T>) -> Parsed<T> {
        if self.nesting >= NESTING {
            return self.fail(format!("fault 9: nested deeper than {NESTING}"));
        }
        self.nesting += 1;
        let found = inner(self);
        self.nesting -= 1;
        found
    }

    fn statement(&mut self) -> Parsed<Statement> {
        let place = Place(self.start);
        if !self.is('@') {
            return self.expected("`}` or a statement, which begins with `@` and its span");
        }
        let span = self.span()?;
        if self.is('{') {
            let block = self.rest_of_block(place, span)?;
            return Ok(Statement { place, span, kind: Kind::Block(block) });
        }
        Ok(Statement { place, span, kind: self.kind()? })
    }

    fn kind(&mut self) -> Parsed<Kind> {
        let word = match &self.token {
            Token::Word(word) => word.clone(),
            _ => String::new(),
        };
        match word.as_str() {
            "if" => return self.if_else(),
            "while" => {
                self.advance()?;
                return Ok(Kind::While(self.expr()?, self.block()?));
            }
            _ => {}
        }
        let kind = match word.as_str() {
            "return" => self.returned()?,
            "let" => self.local(Kind::Let)?,
            "const" => self.local(Kind::Const)?,
            "break" => self.advance().map(|()| Kind::Break)?,
            "continue" => self.advance().map(|()| Kind::Continue)?,
            _ => self.expr_or_assign()?,
        };
        self.expect(';').map(|()| kind)
    }

    fn if_else(&mut self) -> Parsed<Kind> {
        self.advance()?;
        let (condition, then) = (self.expr()?, self.block()?);
        let other = if self.eat_word("else")? { Some(self.block()?) } else { None };
        Ok(Kind::IfElse(condition, then, other))
    }

    fn returned(&mut self) -> Parsed<Kind> {
        self.advance()?;
        let ty = self.of_type()?;
        let value = if self.is(';') { None } else { Some(self.expr()?) };
        Ok(Kind::Return(value, ty))
    }

    fn local(&mut self, kind: fn(Name, Ty, Expr) -> Kind) -> Parsed<Kind> {
        self.advance()?;
        let (name, ty) = (self.name()?, self.of_type()?);
        self.expect('=')?;
        Ok(kind(name, ty, self.expr()?))
    }

    fn expr_or_assign(&mut self) -> Parsed<Kind> {
        let e = self.expr()?;
        if !self.eat('=')? {
            return Ok(Kind::Expr(e));
        }
        let ty = self.of_type()?;
        Ok(Kind::Assign(e, self.expr()?, ty))
    }

    fn expr(&mut self) -> Parsed<Expr> {
        self.deeper(Parser::expr_inner)
    }

    fn child(&mut self) -> Parsed<Box<Expr>> {
        self.expr().map(Box::new)
    }

    // An operator with its own `@span:type`, then its child; else what may be followed by `.`, `(` or `[`.
    fn expr_inner(&mut self) -> Parsed<Expr> {
        let place = Place(self.start);
        let operator = |p: &Self| OPERATORS.iter().position(|o| p.is_word(o) || p.is(o.chars().next().unwrap()));
        if let Some(n) = operator(self) {
            self.advance()?;
            let (span, ty) = (self.span()?, self.of_type()?);
            return Ok(Expr { place, span, ty, node: Node::Unary(n as u8, self.child()?) });
        }
        if self.eat_word("delete")? {
            let span = self.span()?;
            if self.is(':') {
                return self.fail("a Delete's type is 0 and is not written");
            }
            return Ok(Expr { place, span, ty: 0, node: Node::Delete(self.child()?) });
        }
        let first = self.primary()?;
        self.followed(first)
    }

    // The expression with a node's `@span:type` read now.
    fn ended(&mut self, place: Place, node: Node) -> Parsed<Expr> {
        Ok(Expr { place, span: self.span()?, ty: self.of_type()?, node })
    }

    fn followed(&mut self, mut e: Expr) -> Parsed<Expr> {
        for _ in 0..CHAIN {
            let place = e.place;
            let node = if self.eat('.')? {
                Node::FieldAccess(Box::new(e), self.name()?)
            } else if self.eat('(')? {
                Node::Call(Box::new(e), self.list(')', Parser::expr)?)
            } else if self.eat('[')? {
                let index = self.child()?;
                self.expect(']')?;
                Node::Indexing(Box::new(e), index)
            } else {
                return Ok(e);
            };
            e = self.ended(place, node)?;
        }
        self.fail(format!("fault 9: more than {CHAIN} fields, calls and indexes in a row"))
    }

    fn primary(&mut self) -> Parsed<Expr> {
        let place = Place(self.start);
        if self.eat('(')? {
            return self.parenthesis(place);
        }
        let node = if self.eat('[')? {
            self.bracket()?
        } else if self.eat_word("obj")? {
            self.expect('{')?;
            Node::Obj(self.list('}', Parser::expr)?)
        } else if self.eat_word("intrinsic")? {
            let name = self.name()?;
            self.expect('(')?;
            Node::Intrinsic(name, self.list(')', Parser::expr)?)
        } else if self.eat_word("this")? {
            Node::This
        } else if self.eat_word("static")? {
            Node::StaticAccess
        } else if self.eat_word("literal")? {
            Node::Literal
        } else if matches!(self.token, Token::Word(_) | Token::Quoted(_)) {
            Node::Ident(self.name()?)
        } else {
            return self.expected("an expression");
        };
        self.ended(place, node)
    }

    // `(left op right)@span:type`, `(child as type)@span`, or an expression that begins with an operator.
    fn parenthesis(&mut self, place: Place) -> Parsed<Expr> {
        let first = self.child()?;
        if self.eat_word("op")? {
            let node = Node::Binary(first, self.child()?);
            self.expect(')')?;
            return self.ended(place, node);
        }
        if self.eat_word("as")? {
            let ty = self.type_ref()?;
            self.expect(')')?;
            return Ok(Expr { place, span: self.span()?, ty, node: Node::Casting(first) });
        }
        match self.eat(')')? {
            true => Ok(*first),
            false => self.expected("`op`, `as` or `)`"),
        }
    }

    // `item, item]` or `item; size]`
    fn bracket(&mut self) -> Parsed<Node> {
        if self.eat(']')? {
            return Ok(Node::List(vec![]));
        }
        let first = self.expr()?;
        if self.eat(';')? {
            self.expect_word("size")?;
            self.expect(']')?;
            return Ok(Node::ListLiteralWithSize(Box::new(first)));
        }
        let mut items = vec![first];
        if !self.eat(',')? && !self.is(']') {
            return self.expected("`,`, `;` or `]`");
        }
        items.extend(self.list(']', Parser::expr)?);
        Ok(Node::List(items))
    }
}
