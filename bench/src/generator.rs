//! Images from a seed: every statement and expression, names that clash, duplicates, shadowing, generics with and without shapes,
//! consuming methods behind pointers, returns in branches and loops. All within document 01's domain.
use crate::image::*;
use crate::random::Random;

/// Names that are locals, globals, structs and methods at once, and some that nearly are what the pass knows.
const NAMES: [&str; 24] = [
    "v",
    "w",
    "x",
    "__tmp0",
    "__tmp1",
    "__tmp",
    "T",
    "U",
    "D",
    "G",
    "std::move",
    "g",
    "take",
    "peek",
    "poke",
    "make",
    "f",
    "__tm",
    "_tmp",
    "x__tmp",
    "std::mov",
    "std::moves",
    "Tx",
    "thi",
];

pub struct Generator {
    pub random: Random,
    image: Image,
    /// names that this body's locals mostly have
    hot: Vec<Name>,
    /// types that its locals mostly have
    hot_types: Vec<TyNo>,
    /// types that are no generic behind pointers
    receivers: Vec<TyNo>,
    /// fresh spans, or spans below this number
    spans: Spans,
    /// few names, types and methods
    small: bool,
    /// many loops, breaks and continues
    jumps: bool,
    budget: usize,
}

enum Spans {
    Fresh(u32),
    Below(usize),
}

pub fn image(seed: u64) -> Image {
    let sizes = |random: &mut Random| match random.below(100) {
        0..60 => random.between(1, 12),
        60..90 => random.between(8, 40),
        90..99 => random.between(30, 150),
        _ => random.between(200, 900),
    };
    image_of(seed, sizes, false)
}

/// Mostly short, for runs of millions.
#[cfg(ours)]
pub fn short(seed: u64) -> Image {
    image_of(seed, few, false)
}

/// As short, with loops in loops, and jumps in them, in their branches and blocks, outside any, and in code that no run comes to.
pub fn jumping(seed: u64) -> Image {
    image_of(seed, few, true)
}

fn few(random: &mut Random) -> usize {
    match random.below(1000) {
        0..800 => random.between(1, 12),
        800..980 => random.between(8, 40),
        980..999 => random.between(30, 150),
        _ => random.between(200, 900),
    }
}

// With a body of so many statements, about.
fn image_of(seed: u64, sizes: impl Fn(&mut Random) -> usize, jumps: bool) -> Image {
    let mut g = Generator {
        random: Random::new(seed),
        image: Image::default(),
        hot: vec![],
        hot_types: vec![],
        receivers: vec![],
        spans: Spans::Fresh(1),
        small: false,
        jumps,
        budget: 0,
    };
    g.small = g.random.chance(40);
    if g.random.chance(40) {
        g.spans = Spans::Below(g.random.one_of(&[2, 4, 9, 300]));
    }
    g.names();
    g.types();
    g.structs();
    g.globals();
    g.choose_hot();
    g.entry();
    g.budget = sizes(&mut g.random);
    g.image.body = g.block(1);
    g.image
}

impl Generator {
    fn span(&mut self) -> SpanNo {
        match &mut self.spans {
            Spans::Fresh(next) => {
                *next += 1;
                if self.random.chance(2) { 0 } else { *next }
            }
            Spans::Below(n) => self.random.below(*n) as SpanNo,
        }
    }

    fn names(&mut self) {
        let mut names: Vec<_> = NAMES.iter().map(|n| n.as_bytes().to_vec()).collect();
        self.random.shuffle(&mut names);
        names.truncate(if self.small { self.random.between(3, 7) } else { self.random.between(6, NAMES.len()) });
        names.insert(0, b"this".to_vec());
        if !names.iter().any(|n| n == b"std::move") {
            names.push(b"std::move".to_vec());
        }
        self.image.names = names;
    }

    fn some_name(&mut self) -> Name {
        self.random.below(self.image.names.len()) as Name
    }

    fn types(&mut self) {
        let shape_names: Vec<Name> = (0..4).map(|_| self.some_name()).collect();
        self.image.types.push(Ty::Plain);
        for i in 1..self.random.between(3, if self.small { 6 } else { 14 }) {
            let lower = self.random.below(i) as TyNo;
            let ty = match self.random.below(10) {
                0 => Ty::Plain,
                1..5 => Ty::Named(self.some_name()),
                5 => Ty::Generic(self.some_name(), 0),
                6 => {
                    let shape = self.random.below(4);
                    Ty::Generic(shape_names[shape], shape as Shape + 1)
                }
                7 => Ty::Array(lower),
                _ => Ty::Pointer(lower),
            };
            self.image.types.push(ty);
        }
    }

    // Structs of most of the types' names, so that most named types have one.
    fn structs(&mut self) {
        let mut names: Vec<Name> =
            (0..self.image.names.len() as Name).filter(|_| self.random.chance(if self.small { 0 } else { 20 })).collect();
        for t in self.image.types.clone() {
            if let Ty::Named(n) | Ty::Generic(n, _) = t
                && self.random.chance(75)
                && !names.contains(&n)
            {
                names.push(n);
            }
        }
        names.sort_by_key(|n| self.image.names[*n as usize].clone());
        for name in names {
            let (destructor, shape) = (self.random.chance(75), if self.random.chance(60) { 0 } else { self.random.between(1, 5) as Shape });
            let mut methods = vec![];
            for method in 0..self.image.names.len() as Name {
                if self.random.chance(25) {
                    methods.push((method, self.random.one_of(&[0, 1, 2, 3, 3, 3])));
                }
            }
            self.random.shuffle(&mut methods);
            self.image.structs.push(Struct { name, destructor, shape, methods });
        }
    }

    fn globals(&mut self) {
        let often = self.random.one_of(&[0, 5, 25]);
        let mut globals: Vec<_> = (0..self.image.names.len() as Name).filter(|_| self.random.chance(often)).collect();
        self.random.shuffle(&mut globals);
        self.image.globals = globals.into_iter().map(|n| (n, self.span())).collect();
    }

    fn choose_hot(&mut self) {
        for _ in 0..self.random.between(1, 5) {
            let name = self.some_name();
            self.hot.push(name);
        }
        if self.random.chance(50) {
            self.hot.push(0);
        }
        for i in 0..self.image.names.len() {
            if self.image.names[i].starts_with(b"__tmp") && self.random.chance(40) {
                self.hot.push(i as Name);
            }
        }
        let with_struct = |t: &Ty| matches!(t, Ty::Named(n) if self.image.structs.iter().any(|s| s.name == *n));
        self.hot_types = (0..self.image.types.len() as TyNo).filter(|t| with_struct(&self.image.types[*t as usize])).collect();
        if self.hot_types.is_empty() || self.random.chance(20) {
            self.hot_types = (0..self.image.types.len() as TyNo).collect();
        }
        self.receivers = (0..self.image.types.len() as TyNo).filter(|t| !self.generic(*t)).collect();
    }

    fn generic(&self, t: TyNo) -> bool {
        match self.image.types[t as usize] {
            Ty::Generic(..) => true,
            Ty::Pointer(inner) => self.generic(inner),
            _ => false,
        }
    }

    fn name(&mut self) -> Name {
        if self.random.chance(88) { self.random.one_of(&self.hot.clone()) } else { self.some_name() }
    }

    fn ty(&mut self) -> TyNo {
        if self.random.chance(80) { self.random.one_of(&self.hot_types.clone()) } else { self.random.below(self.image.types.len()) as TyNo }
    }

    fn entry(&mut self) {
        let named = |i: &Image, t: TyNo| matches!(i.types[t as usize], Ty::Named(_));
        let all: Vec<TyNo> = (0..self.image.types.len() as TyNo).collect();
        let values: Vec<_> = all.iter().copied().filter(|t| named(&self.image, *t)).collect();
        let pointers: Vec<_> =
            all.iter().copied().filter(|t| matches!(self.image.types[*t as usize], Ty::Pointer(p) if named(&self.image, p))).collect();
        let entry = &mut self.image.entry;
        match self.random.below(5) as u8 {
            4 if !values.is_empty() => (entry.receiver, entry.this) = (4, self.random.one_of(&values)),
            r @ (2 | 3) if !pointers.is_empty() => (entry.receiver, entry.this) = (r, self.random.one_of(&pointers)),
            r => entry.receiver = r % 2,
        }
        let params = if self.random.chance(3) { 16 } else { self.random.below(5) };
        for _ in 0..params {
            let param = (self.name(), self.ty());
            self.image.entry.params.push(param);
        }
    }

    fn block(&mut self, depth: usize) -> Block {
        let span = self.span();
        let mut statements = vec![];
        let most = if depth == 1 { usize::MAX } else { self.random.between(0, 5) };
        while self.budget > 0 && statements.len() < most {
            self.budget -= 1;
            self.stmts(depth, &mut statements);
        }
        if depth > 1 && self.random.chance(25) {
            statements.push(self.returning());
        }
        Block { span, statements }
    }

    fn stmts(&mut self, depth: usize, out: &mut Vec<Stmt>) {
        let deeper = depth < 12;
        match self.kind() {
            0..30 => out.push(self.expr_stmt()),
            30..52 => out.push(self.variable()),
            52..64 => out.push(self.assign()),
            64..69 => out.push(self.returning()),
            69..73 if deeper => out.push(Stmt::Block(self.block(depth + 1))),
            73..88 if deeper => out.push(self.if_else(depth)),
            88..94 if deeper => {
                let (span, condition) = (self.span(), self.condition());
                out.push(Stmt::While { span, condition, body: self.block(depth + 1) });
            }
            94..96 => out.push(Stmt::Break(self.span())),
            96..98 => out.push(Stmt::Continue(self.span())),
            98 if deeper && self.random.chance(50) => self.many_places(out),
            98 if self.random.chance(5) => {
                let levels = self.random.between(19, 24);
                out.push(self.deep(levels));
            }
            98 if deeper && self.random.chance(5) => {
                let levels = self.random.between(11 - depth.min(10), 13 - depth.min(12));
                out.push(self.nested(levels));
            }
            99 if self.random.chance(10) => (0..self.random.between(50, 66)).for_each(|_| out.push(self.variable())),
            _ => out.push(self.expr_stmt()),
        }
    }

    // The kind of a statement, as the table of `stmts` has it.
    fn kind(&mut self) -> usize {
        match self.random.below(100) {
            k if !self.jumps => k,
            0..22 => 30,
            22..36 => 88,
            36..45 => 94,
            45..54 => 96,
            54..60 => 69,
            k => k,
        }
    }

    // One name given up in many branches: the joined state gathers places, now and then a ninth.
    fn many_places(&mut self, out: &mut Vec<Stmt>) {
        let name = self.name();
        for _ in 0..self.random.between(6, 10) {
            let (span, condition, block) = (self.span(), self.condition(), self.span());
            let statements = vec![self.give_up(name)];
            let then = Block { span: block, statements };
            out.push(if self.random.chance(20) {
                Stmt::While { span, condition, body: then }
            } else {
                Stmt::IfElse { span, condition, then, other: None }
            });
        }
    }

    // A call under so many nodes, near the limit of 24.
    fn deep(&mut self, levels: usize) -> Stmt {
        let span = self.span();
        let mut expr = self.wrapped_name();
        for _ in 0..levels {
            let (ty, child) = (self.ty(), Box::new(expr));
            expr = match self.random.below(4) {
                0 => self.leaf(Node::Casting(child), ty),
                1 => self.leaf(Node::Call(Box::new(Expr { span, ty, at: 0, node: Node::Literal }), vec![*child]), ty),
                2 => self.leaf(Node::Unary(0, child), ty),
                _ => self.leaf(Node::Sized(child), ty),
            };
        }
        Stmt::Expr { span, expr }
    }

    // Blocks in blocks, near the limit of 12.
    fn nested(&mut self, levels: usize) -> Stmt {
        let mut statements = vec![self.variable()];
        for _ in 0..levels {
            let inner = Block { span: self.span(), statements };
            let (span, condition) = (self.span(), self.condition());
            let stmt = match self.random.below(3) {
                0 => Stmt::Block(inner),
                1 => Stmt::While { span, condition, body: inner },
                _ => Stmt::IfElse { span, condition, then: inner, other: None },
            };
            statements = vec![self.variable(), stmt, self.expr_stmt()];
        }
        Stmt::Block(Block { span: self.span(), statements })
    }

    fn if_else(&mut self, depth: usize) -> Stmt {
        let (span, condition) = (self.span(), self.condition());
        let then = self.block(depth + 1);
        let other = self.random.chance(60).then(|| self.block(depth + 1));
        Stmt::IfElse { span, condition, then, other }
    }

    fn condition(&mut self) -> Expr {
        if self.random.chance(70) { self.leaf(Node::Literal, 0) } else { self.expr(1) }
    }

    fn returning(&mut self) -> Stmt {
        let span = self.span();
        let value = match self.random.below(3) {
            0 => None,
            1 => Some(self.wrapped_name()),
            _ => Some(self.expr(1)),
        };
        Stmt::Return { span, value, ty: self.ty() }
    }

    fn variable(&mut self) -> Stmt {
        let (constant, span, name, ty) = (self.random.chance(30), self.span(), self.name(), self.ty());
        let value = if self.random.chance(35) { self.wrapped_name() } else { self.expr(1) };
        Stmt::Variable { constant, span, name, ty, value }
    }

    fn assign(&mut self) -> Stmt {
        let span = self.span();
        let dst = if self.random.chance(80) { self.wrapped_name() } else { self.expr(1) };
        let val = if self.random.chance(45) { self.wrapped_name() } else { self.expr(1) };
        Stmt::Assign { span, dst, val, ty: self.ty() }
    }

    fn expr_stmt(&mut self) -> Stmt {
        if self.random.chance(45) {
            let name = self.name();
            return self.give_up(name);
        }
        let span = self.span();
        let expr = if self.random.chance(30) { self.call(1) } else { self.expr(1) };
        Stmt::Expr { span, expr }
    }

    /// `delete name`, `std::move(name)`, `name.method()`
    fn give_up(&mut self, name: Name) -> Stmt {
        let span = self.span();
        let ident = self.ident_of(name);
        let ident = self.through(ident);
        let expr = match self.random.below(3) {
            0 => self.leaf(Node::Delete(Box::new(ident)), 0),
            1 => self.moving(vec![ident]),
            _ => {
                let callee = self.method_of(ident);
                let ty = self.ty();
                self.leaf(Node::Call(Box::new(callee), vec![]), ty)
            }
        };
        Stmt::Expr { span, expr: self.through(expr) }
    }

    fn moving(&mut self, args: Vec<Expr>) -> Expr {
        let name = self.image.names.iter().position(|n| n == b"std::move").unwrap() as Name;
        let ty = self.ty();
        self.leaf(Node::Intrinsic(name, args), ty)
    }

    fn leaf(&mut self, node: Node, ty: TyNo) -> Expr {
        Expr { span: self.span(), ty, at: 0, node }
    }

    fn ident_of(&mut self, name: Name) -> Expr {
        let ty = self.ty();
        if name == 0 && self.random.chance(60) { self.leaf(Node::This, ty) } else { self.leaf(Node::Ident(name), ty) }
    }

    /// Now and then under unary nodes without an operator.
    fn through(&mut self, mut e: Expr) -> Expr {
        while self.random.chance(12) {
            let ty = self.ty();
            e = self.leaf(Node::Unary(0, Box::new(e)), ty);
        }
        e
    }

    fn wrapped_name(&mut self) -> Expr {
        let name = self.name();
        let e = self.ident_of(name);
        self.through(e)
    }

    /// A field of a target whose own type is no generic, save now and then.
    fn method_of(&mut self, mut target: Expr) -> Expr {
        target.ty = if self.random.chance(99) { self.random.one_of(&self.receivers.clone()) } else { target.ty };
        // the method of a struct, mostly a consuming one
        let methods: Vec<Name> = self.image.structs.iter().flat_map(|s| &s.methods).filter(|m| m.1 == 3).map(|m| m.0).collect();
        let name = if methods.is_empty() || self.random.chance(15) { self.some_name() } else { self.random.one_of(&methods) };
        let ty = self.ty();
        let field = self.leaf(Node::Field(Box::new(target), name), ty);
        self.through(field)
    }

    fn call(&mut self, depth: usize) -> Expr {
        let callee = match self.random.below(4) {
            0 => self.expr(depth + 3),
            1 => self.leaf(Node::StaticAccess, 0),
            _ => {
                let target = if self.random.chance(85) { self.wrapped_name() } else { self.expr(depth + 4) };
                self.method_of(target)
            }
        };
        let args = self.items(depth);
        let ty = self.ty();
        let e = self.leaf(Node::Call(Box::new(callee), args), ty);
        self.through(e)
    }

    fn items(&mut self, depth: usize) -> Vec<Expr> {
        (0..self.random.one_of(&[0, 0, 1, 1, 2, 3]))
            .map(|_| if self.random.chance(50) { self.wrapped_name() } else { self.expr(depth + 3) })
            .collect()
    }

    fn boxed(&mut self, depth: usize) -> Box<Expr> {
        Box::new(self.expr(depth + 1))
    }

    // A branch adds at most 4 to the depth, and `through` a few more.
    fn expr(&mut self, depth: usize) -> Expr {
        if depth > 9 || self.random.chance(35) {
            return match self.random.below(4) {
                0 => self.leaf(Node::Literal, 0),
                1 if self.random.chance(30) => self.leaf(Node::StaticAccess, 0),
                _ => self.wrapped_name(),
            };
        }
        let ty = self.ty();
        let node = match self.random.below(13) {
            0 => Node::Unary(self.random.between(1, 4) as u8, self.boxed(depth)),
            1 => Node::Casting(self.boxed(depth)),
            2 => Node::Binary(self.boxed(depth), self.boxed(depth)),
            3 | 4 => return self.call(depth),
            5 => Node::List(self.items(depth)),
            6 => Node::Sized(self.boxed(depth)),
            7 => Node::Obj(self.items(depth)),
            8 => {
                let child = self.boxed(depth);
                return self.leaf(Node::Delete(child), 0);
            }
            9 => Node::Field(self.boxed(depth), self.some_name()),
            10 => Node::Indexing(self.boxed(depth), self.boxed(depth)),
            11 => Node::Intrinsic(self.some_name(), self.items(depth)),
            _ => {
                let args = self.items(depth);
                return self.moving(args);
            }
        };
        let e = self.leaf(node, ty);
        self.through(e)
    }
}

/// An image's bytes, damaged: bits flipped, bytes set, cut, put in or taken out, its length mostly put right again.
pub fn damaged(bytes: &[u8], random: &mut Random) -> Vec<u8> {
    let mut b = bytes.to_vec();
    for _ in 0..random.one_of(&[1, 1, 1, 2, 4]) {
        if b.is_empty() {
            break;
        }
        let at = random.below(b.len());
        match random.below(7) {
            0 => b[at] ^= 1 << random.below(8),
            1 => b[at] = random.next() as u8,
            2 => b[at] = random.one_of(&[0, 1, 2, 3, 4, 5, 9, 10, 11, 15, 16, 255]),
            3 => b.truncate(at),
            4 => b.insert(at, random.one_of(&[0, 1, 3, 255])),
            5 => drop(b.remove(at)),
            // a number one up or down
            _ => b[at] = b[at].wrapping_add(random.one_of(&[1, 255])),
        }
    }
    if b.len() >= 4 && random.chance(85) {
        let length = b.len() as u32 - 4;
        b[..4].copy_from_slice(&length.to_be_bytes());
    }
    b
}
