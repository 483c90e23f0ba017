// The published mod.rs stands in this module, so that its private functions and fields are within reach.
include!("published.rs");

impl<'hir> HirOwnershipPass<'hir> {
    /// run_ownership_for_body
    pub fn body(&mut self, body: &mut HirBlock<'hir>, params: &[HirFunctionParameterSignature<'hir>]) {
        self.run_ownership_for_body(body, params)
    }

    /// run_ownership_for_method_body
    pub fn method_body(
        &mut self,
        body: &mut HirBlock<'hir>,
        params: &[HirFunctionParameterSignature<'hir>],
        modifier: HirStructMethodModifier,
        struct_ty: &'hir HirTy<'hir>,
    ) {
        self.run_ownership_for_method_body(body, params, modifier, struct_ty)
    }

    pub fn errors(&self) -> &[HirError] {
        &self.errors
    }
}

/// The locals of all frames, newest first, each with its state: 0 Alive, 1 Deleted, 2 Moved, 3 Consumed, 4 to 6 the same under a
/// condition; and its places.
#[allow(dead_code)]
fn states_of(stack: &[ScopeFrame<'_>]) -> Vec<(String, u8, Vec<Span>)> {
    let said = |frame: &ScopeFrame<'_>, name: &str| match &frame.states[name] {
        OwnershipState::Alive => (0, vec![]),
        OwnershipState::Deleted(places) => (1, places.clone()),
        OwnershipState::Moved(places) => (2, places.clone()),
        OwnershipState::Consumed(places) => (3, places.clone()),
        OwnershipState::ConditionallyDeleted(places) => (4, places.clone()),
        OwnershipState::ConditionallyMoved(places) => (5, places.clone()),
        OwnershipState::ConditionallyConsumed(places) => (6, places.clone()),
    };
    let mut list = Vec::new();
    for frame in stack.iter().rev() {
        for local in frame.locals.iter().rev() {
            let (state, places) = said(frame, local.name);
            list.push((local.name.to_string(), state, places));
        }
    }
    list
}

/// The Ident of a local's delete gets the local's birth as its span.
#[allow(dead_code)]
fn born_at(drop: Option<&mut HirStatement<'_>>, born: Span) {
    if let Some(HirStatement::Expr(e)) = drop
        && let HirExpr::Delete(d) = &mut e.expr
        && let HirExpr::Ident(id) = &mut *d.expr
    {
        id.span = born;
    }
}
