//! Stands for monomorphization_pass.rs. The pass asks it for the mangled name of a generic receiver; an image with one is refused
//! (fault 11), so an answer is never used.
use super::arena::HirArena;
use super::ty::HirGenericTy;

pub struct MonomorphizationPass;

impl MonomorphizationPass {
    pub fn generate_mangled_name<'hir>(_: &'hir HirArena<'hir>, _: &HirGenericTy<'hir>, _: &str) -> &'hir str {
        unreachable!("a generic receiver")
    }
}
