//! Stands for item.rs: the items of a module, with the fields that the published files name. Of them the two functions of the pass
//! read only a global's span.
use super::signature::{
    HirFlag, HirFunctionSignature, HirStructDestructorSignature, HirStructFieldSignature, HirStructMethodSignature,
    HirStructSignature, HirUnionSignature, HirVisibility,
};
use super::stmt::HirBlock;
use super::ty::HirGenericTy;
use crate::atlas_c::utils::Span;

#[derive(Debug, Clone)]
pub struct HirImport<'hir> {
    pub path: &'hir str,
    pub alias: Option<&'hir str>,
}

#[derive(Debug, Clone)]
pub struct HirFunction<'hir> {
    pub name: &'hir str,
    pub signature: &'hir HirFunctionSignature<'hir>,
    pub body: HirBlock<'hir>,
}

#[derive(Debug, Clone)]
pub struct HirStructMethod<'hir> {
    pub name: &'hir str,
    pub signature: &'hir HirStructMethodSignature<'hir>,
    pub body: HirBlock<'hir>,
}

#[derive(Debug, Clone)]
pub struct HirStructDestructor<'hir> {
    pub vis: HirVisibility,
    pub signature: HirStructDestructorSignature<'hir>,
    pub body: HirBlock<'hir>,
}

#[derive(Debug, Clone)]
pub struct HirStruct<'hir> {
    pub name: &'hir str,
    pub name_span: Span,
    pub vis: HirVisibility,
    pub flag: HirFlag,
    pub pre_mangled_ty: Option<&'hir HirGenericTy<'hir>>,
    pub signature: HirStructSignature<'hir>,
    pub fields: Vec<HirStructFieldSignature<'hir>>,
    pub methods: Vec<HirStructMethod<'hir>>,
    pub operators: Vec<HirStructMethod<'hir>>,
    pub destructor: Option<HirStructDestructor<'hir>>,
}

#[derive(Debug, Clone)]
pub struct HirUnion<'hir> {
    pub name: &'hir str,
    pub vis: HirVisibility,
    pub signature: HirUnionSignature<'hir>,
}

#[derive(Debug, Clone)]
pub struct HirEnumVariant<'hir> {
    pub name: &'hir str,
    pub value: u64,
}

#[derive(Debug, Clone)]
pub struct HirEnum<'hir> {
    pub name: &'hir str,
    pub vis: HirVisibility,
    pub variants: Vec<HirEnumVariant<'hir>>,
}

#[derive(Debug, Clone)]
pub struct HirConcept<'hir> {
    pub name: &'hir str,
}

#[derive(Debug, Clone)]
pub struct HirExtendBlock<'hir> {
    pub name: &'hir str,
}

#[derive(Debug, Clone)]
pub struct HirGlobalConst<'hir> {
    pub name: &'hir str,
    pub span: Span,
}
