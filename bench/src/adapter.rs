//! Between the compiler's HIR and an image. `ToImage::image` is what the compiler's own adapter does first: it numbers the names, type
//! addresses and spans of a body as it comes to them, and writes the body and the tables that it needs. `ToHir` makes HIR of an image
//! again; here it also makes up the fields that the pass never reads, each in many ways, where the compiler's adapter takes them from the
//! body that it submitted.
use crate::image::{Block, Entry, Expr, Image, Name, Node, Shape, SpanNo, Stmt, Struct, Ty, TyNo};
use oracle::atlas_c::atlas_hir::arena::HirArena;
use oracle::atlas_c::atlas_hir::expr::*;
use oracle::atlas_c::atlas_hir::item::HirGlobalConst;
use oracle::atlas_c::atlas_hir::signature::*;
use oracle::atlas_c::atlas_hir::stmt::*;
use oracle::atlas_c::atlas_hir::ty::*;
use oracle::atlas_c::utils::Span;
use std::collections::{BTreeMap, HashMap};

/// The file of every span that is made up; `Span::default()` has its own.
pub const FILE: &str = "body.atlas";
pub const DEFAULT_FILE: &str = "<stdin>.atlas";

/// One number for each name, each type address and each span, both ways.
pub struct Numbers<'hir> {
    pub names: Vec<&'hir str>,
    pub types: Vec<&'hir HirTy<'hir>>,
    name_numbers: HashMap<&'hir str, Name>,
    type_numbers: HashMap<*const HirTy<'hir>, TyNo>,
    spans: Spans,
}

enum Spans {
    /// of an image that is not a compiler's: number n is place n of one file
    MadeUp,
    /// in the order in which they were come to
    Counted(Vec<Span>, HashMap<Span, SpanNo>),
}

impl<'hir> Numbers<'hir> {
    /// Of a body that is to be numbered. Name 0 is `this`, type 0 plain (the type of a Delete), span 0 `Span::default()`.
    pub fn new(unit: &'hir HirTy<'hir>) -> Self {
        let spans = Spans::Counted(vec![], HashMap::new());
        let mut numbers = Numbers { names: vec![], types: vec![], name_numbers: HashMap::new(), type_numbers: HashMap::new(), spans };
        numbers.name_number("this");
        numbers.ty_number(unit);
        numbers.span_number(Span::default());
        numbers
    }

    /// The numbers that an image has; `names` are its names as text.
    pub fn of(image: &Image, names: &'hir [String], arena: &'hir HirArena<'hir>) -> Self {
        let spans = Spans::MadeUp;
        let mut numbers = Numbers { names: vec![], types: vec![], name_numbers: HashMap::new(), type_numbers: HashMap::new(), spans };
        for name in names {
            numbers.name_number(name);
        }
        for (i, ty) in image.types.iter().enumerate() {
            let made = numbers.ty_of(*ty, i);
            numbers.ty_number(arena.types().all.keep(made));
        }
        numbers
    }

    fn ty_of(&self, ty: Ty, number: usize) -> HirTy<'hir> {
        match ty {
            Ty::Plain => self.plain(number),
            Ty::Named(name) => HirTy::Named(HirNamedTy { name: self.name(name), span: Span::default() }),
            Ty::Generic(name, shape) => HirTy::Generic(generic(self.name(name), shape)),
            Ty::Array(inner) => HirTy::InlineArray(HirInlineArrayTy { inner: self.ty(inner), size: number }),
            Ty::Pointer(inner) => HirTy::PtrTy(HirPtrTy { inner: self.ty(inner), is_const: number % 2 == 0, span: Span::default() }),
        }
    }

    // A plain type is any other than a named, generic, inline array or pointer type.
    fn plain(&self, number: usize) -> HirTy<'hir> {
        let inner = self.types.last().copied();
        match (number % 9, inner) {
            (1, _) => HirTy::Integer(HirIntegerTy { size_in_bits: 64 }),
            (2, _) => HirTy::Boolean(HirBooleanTy {}),
            (3, _) => HirTy::String(HirStringTy {}),
            (4, Some(inner)) => HirTy::Slice(HirSliceTy { inner }),
            (5, _) => HirTy::Uninitialized(HirUninitializedTy {}),
            (6, Some(inner)) => HirTy::Atomic(HirAtomicTy { inner, span: Span::default() }),
            (7, Some(base)) => HirTy::Associated(HirAssociatedTypeTy { base, name: "item", span: Span::default() }),
            (8, Some(ret_ty)) => HirTy::Function(HirFunctionTy {
                ret_ty,
                ret_ty_span: Span::default(),
                params: vec![],
                param_spans: vec![],
                span: Span::default(),
            }),
            _ => HirTy::Unit(HirUnitTy {}),
        }
    }

    pub fn name(&self, number: Name) -> &'hir str {
        self.names[number as usize]
    }

    pub fn ty(&self, number: TyNo) -> &'hir HirTy<'hir> {
        self.types[number as usize]
    }

    pub fn span(&self, number: SpanNo) -> Span {
        match &self.spans {
            Spans::MadeUp if number == 0 => Span::default(),
            Spans::MadeUp => Span { start: number as usize, end: number as usize, path: FILE },
            Spans::Counted(list, _) => list[number as usize],
        }
    }

    /// The number of a name, a new one if it has none yet.
    pub fn name_number(&mut self, name: &'hir str) -> Name {
        *self.name_numbers.entry(name).or_insert_with(|| {
            self.names.push(name);
            Name::try_from(self.names.len() - 1).expect("a name's number has two bytes")
        })
    }

    /// The number of a type's address; what is inside has a lower one.
    pub fn ty_number(&mut self, ty: &'hir HirTy<'hir>) -> TyNo {
        if let Some(number) = self.type_numbers.get(&(ty as *const _)) {
            return *number;
        }
        if let HirTy::InlineArray(HirInlineArrayTy { inner, .. }) | HirTy::PtrTy(HirPtrTy { inner, .. }) = ty {
            self.ty_number(inner);
        }
        let number = TyNo::try_from(self.types.len()).expect("a type's number has two bytes");
        self.types.push(ty);
        self.type_numbers.insert(ty, number);
        number
    }

    pub fn span_number(&mut self, span: Span) -> SpanNo {
        match &mut self.spans {
            Spans::MadeUp => made_up_number(span),
            Spans::Counted(list, numbers) => *numbers.entry(span).or_insert_with(|| {
                list.push(span);
                list.len() as SpanNo - 1
            }),
        }
    }
}

/// The number of a span that was made up.
pub fn made_up_number(span: Span) -> SpanNo {
    if span == Span::default() { 0 } else { span.start as SpanNo }
}

/// A shape is one list of inner types; shape 0 is none that a struct has.
fn generic<'hir>(name: &'hir str, shape: Shape) -> HirGenericTy<'hir> {
    let inner = HirTy::LiteralInteger(HirLiteralIntegerTy { value: shape as i64, span: Span::default() });
    HirGenericTy { name, inner: vec![inner], span: Span::default() }
}

// ---- the tables ----

pub fn signature<'hir>(image: &Image, numbers: &Numbers<'hir>, arena: &'hir HirArena<'hir>) -> HirModuleSignature<'hir> {
    let mut all = HirModuleSignature::default();
    for (i, s) in image.structs.iter().enumerate() {
        let pre_mangled_ty = (s.shape != 0).then(|| arena.generics.keep(generic(name_of_shape(image, numbers, s.shape), s.shape)));
        let methods = s.methods.iter().map(|m| (numbers.name(m.0), method(modifier(m.1)))).collect();
        let made = struct_signature(numbers.name(s.name), s.destructor, pre_mangled_ty, methods, i % 2 == 0);
        all.structs.insert(numbers.name(s.name), arena.structs.keep(made));
    }
    for (name, span) in &image.globals {
        let name = numbers.name(*name);
        all.global_consts.insert(name, arena.globals.keep(HirGlobalConst { name, span: numbers.span(*span) }));
    }
    all
}

// The generic types of one shape have one name; a shape that no type has may have any.
fn name_of_shape<'hir>(image: &Image, numbers: &Numbers<'hir>, shape: Shape) -> &'hir str {
    let named = image.types.iter().find_map(|t| match t {
        Ty::Generic(name, k) if *k == shape => Some(numbers.name(*name)),
        _ => None,
    });
    named.unwrap_or("this")
}

/// 0 static, 1 const, 2 mutable, 3 consuming
pub fn modifier(byte: u8) -> HirStructMethodModifier {
    match byte {
        0 => HirStructMethodModifier::Static,
        1 => HirStructMethodModifier::Const,
        2 => HirStructMethodModifier::Mutable,
        _ => HirStructMethodModifier::Consuming,
    }
}

fn method<'hir>(modifier: HirStructMethodModifier) -> HirStructMethodSignature<'hir> {
    HirStructMethodSignature {
        span: Span::default(),
        vis: HirVisibility::Public,
        modifier,
        params: vec![],
        generics: None,
        type_params: vec![],
        return_ty: HirTy::Unit(HirUnitTy {}),
        return_ty_span: None,
        where_clause: None,
        is_constraint_satisfied: true,
        attributes: vec![],
        is_instantiated: true,
        docstring: None,
    }
}

fn struct_signature<'hir>(
    name: &'hir str,
    destructor: bool,
    pre_mangled_ty: Option<&'hir HirGenericTy<'hir>>,
    methods: BTreeMap<&'hir str, HirStructMethodSignature<'hir>>,
    is_trivially_copyable: bool,
) -> HirStructSignature<'hir> {
    let span = Span::default();
    let vis = HirVisibility::Public;
    HirStructSignature {
        declaration_span: span,
        vis,
        flag: HirFlag::None,
        name,
        pre_mangled_ty,
        name_span: span,
        methods,
        fields: BTreeMap::new(),
        generics: vec![],
        operators: BTreeMap::new(),
        constants: BTreeMap::new(),
        destructor: destructor.then(|| HirStructDestructorSignature { span, vis, where_clause: None, docstring: None }),
        had_user_defined_destructor: destructor,
        is_trivially_copyable,
        nullable_attribute_span: None,
        is_instantiated: true,
        docstring: None,
        is_extern: false,
        c_name: None,
        represents_ty: None,
    }
}

pub fn params<'hir>(image: &Image, numbers: &Numbers<'hir>) -> Vec<HirFunctionParameterSignature<'hir>> {
    let span = Span::default();
    let of = |(name, ty): &(Name, TyNo)| HirFunctionParameterSignature {
        span,
        name: numbers.name(*name),
        name_span: span,
        ty: numbers.ty(*ty),
        ty_span: span,
    };
    image.entry.params.iter().map(of).collect()
}

// ---- image to HIR ----

/// A mark takes the place of the span of a statement and of a block, in the order of reading: it tells submitted statements from
/// inserted ones. The pass compares no statement's span with another. With marks, each bare return gets a literal.
#[derive(Default)]
pub struct Marks {
    pub on: bool,
    /// by mark: the statement's span, whether it is a bare return, where the tag of its callee stands
    pub marked: Vec<Marked>,
}

#[derive(Clone, Copy)]
pub struct Marked {
    pub span: SpanNo,
    pub bare_return: bool,
    pub callee: Option<usize>,
}

const MARK: usize = usize::MAX;

/// The mark that a span is, if it is one.
pub fn mark_of(span: Span) -> Option<usize> {
    (span.end == MARK).then_some(span.start)
}

pub struct ToHir<'a, 'hir> {
    pub numbers: &'a Numbers<'hir>,
    pub marks: Marks,
}

impl<'hir> ToHir<'_, 'hir> {
    fn span(&mut self, span: SpanNo, bare_return: bool, callee: Option<usize>) -> Span {
        if !self.marks.on {
            return self.numbers.span(span);
        }
        self.marks.marked.push(Marked { span, bare_return, callee });
        Span { start: self.marks.marked.len() - 1, end: MARK, path: FILE }
    }

    fn name(&self, name: Name) -> &'hir str {
        self.numbers.name(name)
    }

    fn ty(&self, ty: TyNo) -> &'hir HirTy<'hir> {
        self.numbers.ty(ty)
    }

    pub fn block(&mut self, block: &Block) -> HirBlock<'hir> {
        let span = self.span(block.span, false, None);
        HirBlock { span, statements: block.statements.iter().map(|s| self.stmt(s)).collect() }
    }

    fn stmt(&mut self, s: &Stmt) -> HirStatement<'hir> {
        match s {
            Stmt::Block(inner) => HirStatement::Block(self.block(inner)),
            Stmt::Return { span, value, ty } => {
                let span = self.span(*span, value.is_none(), None);
                let value = match value {
                    Some(e) => Some(self.expr(e)),
                    None if self.marks.on => Some(literal(0, Span::default(), self.ty(0))),
                    None => None,
                };
                HirStatement::Return(HirReturn { span, value, ty: self.ty(*ty) })
            }
            Stmt::Expr { span, expr } => {
                let span = self.span(*span, false, callee_of(expr));
                HirStatement::Expr(HirExprStmt { span, expr: self.expr(expr) })
            }
            Stmt::Variable { constant, span, name, ty, value } => {
                let span = self.span(*span, false, None);
                let (name, ty, value) = (self.name(*name), self.ty(*ty), self.expr(value));
                let made = HirVariableStmt { span, name, name_span: span, ty, ty_span: None, value };
                if *constant { HirStatement::Const(made) } else { HirStatement::Let(made) }
            }
            Stmt::Assign { span, dst, val, ty } => {
                let span = self.span(*span, false, None);
                HirStatement::Assign(HirAssignStmt { span, dst: self.expr(dst), val: self.expr(val), ty: self.ty(*ty) })
            }
            Stmt::IfElse { span, condition, then, other } => {
                let span = self.span(*span, false, None);
                HirStatement::IfElse(HirIfElseStmt {
                    span,
                    condition: self.expr(condition),
                    then_branch: self.block(then),
                    else_branch: other.as_ref().map(|b| self.block(b)),
                })
            }
            Stmt::While { span, condition, body } => {
                let span = self.span(*span, false, None);
                HirStatement::While(HirWhileStmt { span, condition: self.expr(condition), body: self.block(body) })
            }
            Stmt::Break(span) => HirStatement::Break(self.span(*span, false, None)),
            Stmt::Continue(span) => HirStatement::Continue(self.span(*span, false, None)),
        }
    }

    fn boxed(&mut self, e: &Expr) -> Box<HirExpr<'hir>> {
        Box::new(self.expr(e))
    }

    fn exprs(&mut self, list: &[Expr]) -> Vec<HirExpr<'hir>> {
        list.iter().map(|e| self.expr(e)).collect()
    }

    fn expr(&mut self, e: &Expr) -> HirExpr<'hir> {
        let (span, ty, vary) = (self.numbers.span(e.span), self.ty(e.ty), e.span.wrapping_add(e.at as u32));
        match &e.node {
            Node::Ident(name) => HirExpr::Ident(HirIdentExpr { name: self.name(*name), span, ty }),
            Node::This => HirExpr::ThisLiteral(HirThisLiteral { span, ty }),
            Node::Unary(op, child) => {
                HirExpr::Unary(UnaryOpExpr { span, op: operator(*op), expr: self.boxed(child), ty, is_overloaded: vary % 2 == 0 })
            }
            Node::Casting(child) => HirExpr::Casting(HirCastExpr { span, expr: self.boxed(child), target_ty: ty }),
            Node::Binary(lhs, rhs) => HirExpr::HirBinaryOperation(HirBinaryOpExpr {
                span,
                op: [HirBinaryOperator::Add, HirBinaryOperator::Or, HirBinaryOperator::Eq][vary as usize % 3],
                op_span: span,
                lhs: self.boxed(lhs),
                rhs: self.boxed(rhs),
                ty,
                is_overloaded: vary % 2 == 0,
            }),
            Node::Call(callee, args) => HirExpr::Call(HirFunctionCallExpr {
                span,
                callee: self.boxed(callee),
                callee_span: Span::default(),
                args: self.exprs(args),
                args_ty: vec![],
                generics: if vary % 3 == 0 { vec![ty] } else { vec![] },
                is_reference: vary % 5 == 0,
                ty,
                kind: [HirFunctionKind::Method, HirFunctionKind::Function, HirFunctionKind::Constructor][vary as usize % 3],
            }),
            Node::List(items) => HirExpr::ListLiteral(HirListLiteralExpr { span, items: self.exprs(items), ty }),
            Node::Sized(item) => HirExpr::ListLiteralWithSize(HirListLiteralWithSizeExpr {
                span,
                item: self.boxed(item),
                size: Box::new(literal(vary, span, ty)),
                ty,
            }),
            Node::Obj(values) => {
                let field = |v: &Expr| HirFieldInit { span, name: "field", name_span: span, ty, value: self.boxed(v) };
                HirExpr::ObjLiteral(HirObjLiteralExpr { span, ty, fields: values.iter().map(field).collect() })
            }
            Node::Delete(child) => HirExpr::Delete(HirDeleteExpr { span, expr: self.boxed(child) }),
            Node::Field(target, name) => HirExpr::FieldAccess(HirFieldAccessExpr {
                span,
                target: self.boxed(target),
                field: Box::new(HirIdentExpr { name: self.name(*name), span: Span::default(), ty: self.ty(0) }),
                ty,
                is_arrow: vary % 2 == 0,
            }),
            Node::Indexing(target, index) => {
                HirExpr::Indexing(HirIndexingExpr { span, target: self.boxed(target), index: self.boxed(index), ty })
            }
            Node::StaticAccess => {
                let field = Box::new(HirIdentExpr { name: self.name(0), span, ty });
                HirExpr::StaticAccess(HirStaticAccessExpr { span, target: ty, field, ty })
            }
            Node::Intrinsic(name, args) => {
                HirExpr::IntrinsicCall(HirIntrinsicCallExpr { span, name: self.name(*name), args: self.exprs(args), args_ty: vec![], ty })
            }
            Node::Literal => literal(vary, span, ty),
        }
    }
}

/// Where the tag of a call's callee stands, if the expression, looked through, is a call.
fn callee_of(e: &Expr) -> Option<usize> {
    match &e.through().node {
        Node::Call(callee, _) => Some(callee.at),
        _ => None,
    }
}

fn operator(byte: u8) -> Option<HirUnaryOp> {
    [None, Some(HirUnaryOp::Neg), Some(HirUnaryOp::Not), Some(HirUnaryOp::AsRef), Some(HirUnaryOp::Deref)][byte as usize]
}

fn literal<'hir>(vary: u32, span: Span, ty: &'hir HirTy<'hir>) -> HirExpr<'hir> {
    match vary % 8 {
        0 => HirExpr::IntegerLiteral(HirIntegerLiteralExpr { value: vary as i64, span, ty }),
        1 => HirExpr::UnsignedIntegerLiteral(HirUnsignedIntegerLiteralExpr { value: vary as u64, span, ty }),
        2 => HirExpr::BooleanLiteral(HirBooleanLiteralExpr { value: true, span, ty }),
        3 => HirExpr::FloatLiteral(HirFloatLiteralExpr { value: 0.5, span, ty }),
        4 => HirExpr::CharLiteral(HirCharLiteralExpr { value: 'c', span, ty }),
        5 => HirExpr::UnitLiteral(HirUnitLiteralExpr { span, ty }),
        6 => HirExpr::StringLiteral(HirStringLiteralExpr { value: "text", span, ty }),
        _ => HirExpr::NullLiteral(HirNullLiteralExpr { span, ty }),
    }
}

// ---- HIR to image ----

pub struct ToImage<'a, 'hir> {
    pub numbers: &'a mut Numbers<'hir>,
}

/// A body as the compiler has it.
pub struct Submitted<'a, 'hir> {
    pub signature: &'a HirModuleSignature<'hir>,
    /// the entry byte, and the type of `this` under 2 to 4
    pub receiver: u8,
    pub this: &'hir HirTy<'hir>,
    pub params: &'a [HirFunctionParameterSignature<'hir>],
    pub body: &'a HirBlock<'hir>,
}

impl<'hir> ToImage<'_, 'hir> {
    /// The image of a body: only the structs, methods and globals that its types and names lead to. Whether it keeps to the limits is
    /// the reader's to say.
    pub fn image(&mut self, s: &Submitted<'_, 'hir>) -> Image {
        let this = if s.receiver >= 2 { self.numbers.ty_number(s.this) } else { 0 };
        let params = s.params.iter().map(|p| (self.numbers.name_number(p.name), self.numbers.ty_number(p.ty))).collect();
        let body = self.block(s.body);
        let mut shapes = Shapes::default();
        let types = self.types(&mut shapes);
        let structs = self.structs(s.signature, &mut shapes);
        let used: Vec<_> = s.signature.global_consts.iter().filter(|g| self.numbers.name_numbers.contains_key(g.0)).collect();
        let globals = used.into_iter().map(|(name, g)| (self.numbers.name_number(name), self.numbers.span_number(g.span))).collect();
        let names = self.numbers.names.iter().map(|n| n.as_bytes().to_vec()).collect();
        Image { names, types, structs, globals, entry: Entry { receiver: s.receiver, this, params }, body }
    }

    fn types(&mut self, shapes: &mut Shapes<'hir>) -> Vec<Ty> {
        let kind = |numbers: &mut Numbers<'hir>, ty: &'hir HirTy<'hir>, shapes: &mut Shapes<'hir>| match ty {
            HirTy::Named(t) => Ty::Named(numbers.name_number(t.name)),
            HirTy::Generic(t) => Ty::Generic(numbers.name_number(t.name), shapes.number(t)),
            HirTy::InlineArray(t) => Ty::Array(numbers.ty_number(t.inner)),
            HirTy::PtrTy(t) => Ty::Pointer(numbers.ty_number(t.inner)),
            _ => Ty::Plain,
        };
        self.numbers.types.clone().into_iter().map(|ty| kind(self.numbers, ty, shapes)).collect()
    }

    // The map is in the order of the names' bytes, as the image's table.
    fn structs(&mut self, signature: &HirModuleSignature<'hir>, shapes: &mut Shapes<'hir>) -> Vec<Struct> {
        let mut list = vec![];
        for (name, s) in &signature.structs {
            let shape = s.pre_mangled_ty.map_or(0, |pre| shapes.known(pre));
            if shape == 0 && !self.numbers.name_numbers.contains_key(name) {
                continue;
            }
            let used =
                s.methods.iter().filter_map(|(method, m)| Some((*self.numbers.name_numbers.get(method)?, modifier_byte(&m.modifier))));
            let methods = used.collect();
            list.push(Struct { name: self.numbers.name_number(name), destructor: s.destructor.is_some(), shape, methods });
        }
        list
    }

    pub fn block(&mut self, block: &HirBlock<'hir>) -> Block {
        let span = self.numbers.span_number(block.span);
        Block { span, statements: block.statements.iter().map(|s| self.stmt(s)).collect() }
    }

    fn stmt(&mut self, s: &HirStatement<'hir>) -> Stmt {
        if let HirStatement::Block(inner) = s {
            return Stmt::Block(self.block(inner));
        }
        let span = self.numbers.span_number(s.span());
        match s {
            HirStatement::Block(_) => unreachable!(),
            HirStatement::Return(r) => {
                Stmt::Return { span, value: r.value.as_ref().map(|e| self.expr(e)), ty: self.numbers.ty_number(r.ty) }
            }
            HirStatement::Expr(e) => Stmt::Expr { span, expr: self.expr(&e.expr) },
            HirStatement::Let(v) => self.variable(false, span, v),
            HirStatement::Const(v) => self.variable(true, span, v),
            HirStatement::Assign(a) => {
                Stmt::Assign { span, dst: self.expr(&a.dst), val: self.expr(&a.val), ty: self.numbers.ty_number(a.ty) }
            }
            HirStatement::IfElse(i) => Stmt::IfElse {
                span,
                condition: self.expr(&i.condition),
                then: self.block(&i.then_branch),
                other: i.else_branch.as_ref().map(|b| self.block(b)),
            },
            HirStatement::While(w) => Stmt::While { span, condition: self.expr(&w.condition), body: self.block(&w.body) },
            HirStatement::Break(_) => Stmt::Break(span),
            HirStatement::Continue(_) => Stmt::Continue(span),
        }
    }

    fn variable(&mut self, constant: bool, span: SpanNo, v: &HirVariableStmt<'hir>) -> Stmt {
        let (name, ty) = (self.numbers.name_number(v.name), self.numbers.ty_number(v.ty));
        Stmt::Variable { constant, span, name, ty, value: self.expr(&v.value) }
    }

    fn boxed(&mut self, e: &HirExpr<'hir>) -> Box<Expr> {
        Box::new(self.expr(e))
    }

    fn exprs(&mut self, list: &[HirExpr<'hir>]) -> Vec<Expr> {
        list.iter().map(|e| self.expr(e)).collect()
    }

    fn expr(&mut self, e: &HirExpr<'hir>) -> Expr {
        let node = match e {
            HirExpr::Ident(x) => {
                assert_eq!(x.span, e.span());
                Node::Ident(self.numbers.name_number(x.name))
            }
            HirExpr::ThisLiteral(x) => {
                assert_eq!(x.span, e.span());
                Node::This
            }
            HirExpr::Unary(x) => Node::Unary(operator_byte(x.op), self.boxed(&x.expr)),
            HirExpr::Casting(x) => Node::Casting(self.boxed(&x.expr)),
            HirExpr::HirBinaryOperation(x) => Node::Binary(self.boxed(&x.lhs), self.boxed(&x.rhs)),
            HirExpr::Call(x) => Node::Call(self.boxed(&x.callee), self.exprs(&x.args)),
            HirExpr::ListLiteral(x) => Node::List(self.exprs(&x.items)),
            HirExpr::ListLiteralWithSize(x) => Node::Sized(self.boxed(&x.item)),
            HirExpr::ObjLiteral(x) => Node::Obj(x.fields.iter().map(|f| self.expr(&f.value)).collect()),
            HirExpr::Delete(x) => Node::Delete(self.boxed(&x.expr)),
            HirExpr::FieldAccess(x) => {
                assert_eq!(x.span, e.span());
                Node::Field(self.boxed(&x.target), self.numbers.name_number(x.field.name))
            }
            HirExpr::Indexing(x) => Node::Indexing(self.boxed(&x.target), self.boxed(&x.index)),
            HirExpr::StaticAccess(_) => Node::StaticAccess,
            HirExpr::IntrinsicCall(x) => Node::Intrinsic(self.numbers.name_number(x.name), self.exprs(&x.args)),
            HirExpr::FloatLiteral(_)
            | HirExpr::CharLiteral(_)
            | HirExpr::IntegerLiteral(_)
            | HirExpr::UnitLiteral(_)
            | HirExpr::BooleanLiteral(_)
            | HirExpr::UnsignedIntegerLiteral(_)
            | HirExpr::StringLiteral(_)
            | HirExpr::NullLiteral(_) => Node::Literal,
        };
        // a Delete has no type field; `HirExpr::ty` gives it a unit of its own, which is type 0
        let ty = if let Node::Delete(_) = node { 0 } else { self.numbers.ty_number(e.ty()) };
        Expr { span: self.numbers.span_number(e.span()), ty, at: 0, node }
    }
}

/// One number, from 1, for each name with inner types that a generic type of the body has.
#[derive(Default)]
struct Shapes<'hir>(Vec<(&'hir str, Vec<HirTy<'hir>>)>);

impl<'hir> Shapes<'hir> {
    fn number(&mut self, ty: &HirGenericTy<'hir>) -> Shape {
        if self.known(ty) == 0 {
            self.0.push((ty.name, ty.inner.clone()));
        }
        self.known(ty)
    }

    /// 0 if no type of the body has it
    fn known(&self, ty: &HirGenericTy<'hir>) -> Shape {
        self.0.iter().position(|(name, inner)| *name == ty.name && *inner == ty.inner).map_or(0, |i| i as Shape + 1)
    }
}

fn modifier_byte(modifier: &HirStructMethodModifier) -> u8 {
    match modifier {
        HirStructMethodModifier::Static => 0,
        HirStructMethodModifier::Const => 1,
        HirStructMethodModifier::Mutable => 2,
        HirStructMethodModifier::Consuming => 3,
    }
}

fn operator_byte(op: Option<HirUnaryOp>) -> u8 {
    match op {
        None => 0,
        Some(HirUnaryOp::Neg) => 1,
        Some(HirUnaryOp::Not) => 2,
        Some(HirUnaryOp::AsRef) => 3,
        Some(HirUnaryOp::Deref) => 4,
    }
}
