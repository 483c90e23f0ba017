//! Stands for the parser: the enums of its tree that signature.rs converts from. The pass converts none.
pub mod parser {
    pub mod ast {
        use crate::atlas_c::utils::Span;

        pub enum AstVisibility {
            Public,
            Private,
        }

        pub enum AstFlag {
            TriviallyCopyable(Span),
            Copyable(Span),
            NonCopyable(Span),
            Default(Span),
            Hashable(Span),
            Intrinsic(Span),
            None,
        }

        pub enum AstNullablePredicateSemantics {
            Empty,
            Present,
        }

        pub enum AstMethodAttribute {
            Nullable(Span),
            NullablePredicate { span: Span, semantics: AstNullablePredicateSemantics },
            NullableGuarded(Span),
            NullableInfallible(Span),
        }
    }
}
