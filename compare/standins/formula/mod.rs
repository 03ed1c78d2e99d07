//! Stand-in for the module list.
mod assignment;
mod caches;
pub mod decl;
pub mod expression;
mod extension;
pub mod factory;
mod hashing;
pub mod predicate;
pub mod tag;
pub mod types;

pub use expression::{Expression, ExpressionKind, Form};
pub use factory::FormulaFactory;
pub use predicate::{Predicate, PredicateKind};
pub use types::Type;

/// The source's test of the type that ∅, prj1, prj2 or id carries, opened.
pub fn fits(op: tag::AtomicOp, ty: &Type) -> bool {
    expression::verify_atomic_type(op, ty)
}
