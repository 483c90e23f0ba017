//! A reader of images, written from document 01 alone: the tree, or the first of the faults 1 to 11.
use crate::image::*;
use std::collections::HashSet;

pub type Read<T> = Result<T, u8>;

pub fn read(bytes: &[u8]) -> Read<Image> {
    // Head
    if bytes.len() < 5 || bytes.len() > 65_536 {
        return Err(1);
    }
    let said = u32::from_be_bytes([bytes[0], bytes[1], bytes[2], bytes[3]]);
    if said as usize != bytes.len() - 4 {
        return Err(1);
    }
    if bytes[4] != 1 {
        return Err(2);
    }
    // Tables
    let mut r = Reader { bytes, at: 5, fault: 3, image: Image::default(), generic: vec![] };
    r.names()?;
    r.fault = 4;
    r.types()?;
    r.fault = 5;
    r.structs()?;
    r.fault = 6;
    r.globals()?;
    r.fault = 7;
    r.entry()?;
    // Body
    r.fault = 8;
    r.image.body = r.block(1)?;
    if r.at != bytes.len() {
        return Err(10);
    }
    Ok(r.image)
}

struct Reader<'a> {
    bytes: &'a [u8],
    at: usize,
    /// the number of a broken rule, or of missing bytes, in the part that is read
    fault: u8,
    image: Image,
    /// of each type: is it generic, perhaps behind pointers
    generic: Vec<bool>,
}

impl Reader<'_> {
    fn require(&self, rule: bool) -> Read<()> {
        if rule { Ok(()) } else { Err(self.fault) }
    }

    fn take(&mut self, n: usize) -> Read<&[u8]> {
        self.require(self.bytes.len() - self.at >= n)?;
        self.at += n;
        Ok(&self.bytes[self.at - n..self.at])
    }

    fn n1(&mut self) -> Read<u8> {
        Ok(self.take(1)?[0])
    }

    fn n2(&mut self) -> Read<u16> {
        let b = self.take(2)?;
        Ok(u16::from_be_bytes([b[0], b[1]]))
    }

    fn n4(&mut self) -> Read<u32> {
        let b = self.take(4)?;
        Ok(u32::from_be_bytes([b[0], b[1], b[2], b[3]]))
    }

    fn flag(&mut self) -> Read<bool> {
        let b = self.n1()?;
        self.require(b <= 1)?;
        Ok(b == 1)
    }

    fn count(&mut self, least: u16, most: u16) -> Read<u16> {
        let n = self.n2()?;
        self.require(least <= n && n <= most)?;
        Ok(n)
    }

    fn name(&mut self) -> Read<Name> {
        let n = self.n2()?;
        self.require((n as usize) < self.image.names.len())?;
        Ok(n)
    }

    fn ty(&mut self) -> Read<TyNo> {
        let n = self.n2()?;
        self.require((n as usize) < self.image.types.len())?;
        Ok(n)
    }

    fn names(&mut self) -> Read<()> {
        let mut seen = HashSet::new();
        for i in 0..self.count(1, 512)? {
            let length = self.n1()?;
            self.require((1..=64).contains(&length))?;
            let name = self.take(length as usize)?.to_vec();
            self.require(i > 0 || name == b"this")?;
            self.require(seen.insert(name.clone()))?;
            self.image.names.push(name);
        }
        Ok(())
    }

    fn types(&mut self) -> Read<()> {
        for i in 0..self.count(1, 256)? {
            let kind = self.n1()?;
            self.require(i > 0 || kind == 0)?;
            let ty = match kind {
                0 => Ty::Plain,
                1 => Ty::Named(self.name()?),
                2 => Ty::Generic(self.name()?, self.n2()?),
                // the types read so far are the lower ones
                3 => Ty::Array(self.ty()?),
                4 => Ty::Pointer(self.ty()?),
                _ => return Err(self.fault),
            };
            self.generic.push(match ty {
                Ty::Generic(..) => true,
                Ty::Pointer(inner) => self.generic[inner as usize],
                _ => false,
            });
            self.image.types.push(ty);
        }
        Ok(())
    }

    fn structs(&mut self) -> Read<()> {
        for i in 0..self.count(0, 64)? as usize {
            let name = self.name()?;
            if i > 0 {
                let last = self.image.structs[i - 1].name;
                self.require(self.image.names[last as usize] < self.image.names[name as usize])?;
            }
            let destructor = self.flag()?;
            let shape = self.n2()?;
            let mut methods: Vec<(Name, u8)> = vec![];
            for _ in 0..self.count(0, 32)? {
                let method = self.name()?;
                let modifier = self.n1()?;
                self.require(modifier <= 3)?;
                self.require(methods.iter().all(|m| m.0 != method))?;
                methods.push((method, modifier));
            }
            self.image.structs.push(Struct { name, destructor, shape, methods });
        }
        Ok(())
    }

    fn globals(&mut self) -> Read<()> {
        for _ in 0..self.count(0, 64)? {
            let name = self.name()?;
            self.require(self.image.globals.iter().all(|g| g.0 != name))?;
            let span = self.n4()?;
            self.image.globals.push((name, span));
        }
        Ok(())
    }

    fn entry(&mut self) -> Read<()> {
        let receiver = self.n1()?;
        self.require(receiver <= 4)?;
        let this = if receiver >= 2 { self.ty()? } else { 0 };
        let mut params = vec![];
        for _ in 0..self.count(0, 16)? {
            params.push((self.name()?, self.ty()?));
        }
        self.image.entry = Entry { receiver, this, params };
        Ok(())
    }

    fn block(&mut self, depth: usize) -> Read<Block> {
        if depth > 12 {
            return Err(9);
        }
        let span = self.n4()?;
        let mut statements = vec![];
        for _ in 0..self.n2()? {
            statements.push(self.stmt(depth)?);
        }
        Ok(Block { span, statements })
    }

    fn stmt(&mut self, depth: usize) -> Read<Stmt> {
        let tag = self.n1()?;
        if tag == 1 {
            return Ok(Stmt::Block(self.block(depth + 1)?));
        }
        self.require((2..=10).contains(&tag))?;
        let span = self.n4()?;
        Ok(match tag {
            2 => {
                let value = if self.flag()? { Some(self.expr(1)?) } else { None };
                Stmt::Return { span, value, ty: self.ty()? }
            }
            3 => Stmt::Expr { span, expr: self.expr(1)? },
            4 | 5 => Stmt::Variable { constant: tag == 5, span, name: self.name()?, ty: self.ty()?, value: self.expr(1)? },
            6 => Stmt::Assign { span, dst: self.expr(1)?, val: self.expr(1)?, ty: self.ty()? },
            7 => {
                let condition = self.expr(1)?;
                let then = self.block(depth + 1)?;
                let other = if self.flag()? { Some(self.block(depth + 1)?) } else { None };
                Stmt::IfElse { span, condition, then, other }
            }
            8 => Stmt::While { span, condition: self.expr(1)?, body: self.block(depth + 1)? },
            9 => Stmt::Break(span),
            _ => Stmt::Continue(span),
        })
    }

    fn expr(&mut self, depth: usize) -> Read<Expr> {
        if depth > 24 {
            return Err(9);
        }
        let at = self.at;
        let tag = self.n1()?;
        self.require((1..=15).contains(&tag))?;
        let span = self.n4()?;
        let ty = self.ty()?;
        self.require(tag != 10 || ty == 0)?;
        let node = match tag {
            1 => Node::Ident(self.name()?),
            2 => Node::This,
            3 => {
                let operator = self.n1()?;
                self.require(operator <= 4)?;
                Node::Unary(operator, self.child(depth)?)
            }
            4 => Node::Casting(self.child(depth)?),
            5 => Node::Binary(self.child(depth)?, self.child(depth)?),
            6 => {
                let (callee, args) = (self.child(depth)?, self.children(depth)?);
                if self.generic_receiver(&callee) {
                    return Err(11);
                }
                Node::Call(callee, args)
            }
            7 => Node::List(self.children(depth)?),
            8 => Node::Sized(self.child(depth)?),
            9 => Node::Obj(self.children(depth)?),
            10 => Node::Delete(self.child(depth)?),
            11 => Node::Field(self.child(depth)?, self.name()?),
            12 => Node::Indexing(self.child(depth)?, self.child(depth)?),
            13 => Node::StaticAccess,
            14 => Node::Intrinsic(self.name()?, self.children(depth)?),
            _ => Node::Literal,
        };
        Ok(Expr { span, ty, at, node })
    }

    fn child(&mut self, depth: usize) -> Read<Box<Expr>> {
        Ok(Box::new(self.expr(depth + 1)?))
    }

    fn children(&mut self, depth: usize) -> Read<Vec<Expr>> {
        let n = self.n2()?;
        (0..n).map(|_| self.expr(depth + 1)).collect()
    }

    // 11: the callee, looked through, is a field access, its target, looked through, an Ident; the target's own type decides.
    fn generic_receiver(&self, callee: &Expr) -> bool {
        let Node::Field(target, _) = &callee.through().node else { return false };
        matches!(target.through().node, Node::Ident(_)) && self.generic[target.ty as usize]
    }
}
