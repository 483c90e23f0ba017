//! Stands for arena.rs: values that live as long as the arena. Of it the pass asks only `types().get_ptr_ty` (for `this` in const
//! and mutable methods) and `types().get_named_ty` (in `run`, which is not called here). The address that `get_ptr_ty` answers is
//! the one that the adapter set, since a type's number is its address.
use super::item::HirGlobalConst;
use super::signature::HirStructSignature;
use super::ty::{HirGenericTy, HirNamedTy, HirPtrTy, HirTy};
use crate::atlas_c::utils::Span;
use std::cell::{Cell, RefCell};

/// Boxes that stay where they are until the store goes.
pub struct Store<T>(RefCell<Vec<Box<T>>>);

impl<T> Store<T> {
    fn new() -> Self {
        Store(RefCell::new(Vec::new()))
    }

    pub fn keep(&self, value: T) -> &T {
        let boxed = Box::new(value);
        let address: *const T = &*boxed;
        self.0.borrow_mut().push(boxed);
        // A box is never taken out or replaced, so what it holds stays as long as the store.
        unsafe { &*address }
    }
}

pub struct HirArena<'hir> {
    types: TypeArena<'hir>,
    pub structs: Store<HirStructSignature<'hir>>,
    pub generics: Store<HirGenericTy<'hir>>,
    pub globals: Store<HirGlobalConst<'hir>>,
}

pub struct TypeArena<'hir> {
    pub all: Store<HirTy<'hir>>,
    /// what `this` is in a const or mutable method
    pub this_pointer: Cell<Option<&'hir HirTy<'hir>>>,
}

impl<'hir> HirArena<'hir> {
    #[allow(clippy::new_without_default)]
    pub fn new() -> Self {
        let types = TypeArena { all: Store::new(), this_pointer: Cell::new(None) };
        HirArena { types, structs: Store::new(), generics: Store::new(), globals: Store::new() }
    }

    pub fn types(&self) -> &TypeArena<'hir> {
        &self.types
    }
}

impl<'hir> TypeArena<'hir> {
    pub fn get_named_ty(&'hir self, name: &'hir str, span: Span) -> &'hir HirTy<'hir> {
        self.all.keep(HirTy::Named(HirNamedTy { name, span }))
    }

    pub fn get_ptr_ty(&'hir self, inner: &'hir HirTy<'hir>, is_const: bool, span: Span) -> &'hir HirTy<'hir> {
        match self.this_pointer.get() {
            Some(ty) => ty,
            None => self.all.keep(HirTy::PtrTy(HirPtrTy { inner, is_const, span })),
        }
    }
}
