//! Stand-in: lets factory.rs and expression.rs compile. No extension is ever registered.
use std::sync::Arc;

use super::expression::Expression;
use super::predicate::Predicate;
use super::types::Type;

pub struct Arity;

impl Arity {
    pub fn accepts(&self, _n: usize) -> bool {
        false
    }
}

pub struct ChildKinds {
    pub exprs: Arity,
    pub preds: Arity,
}

pub struct ExtensionKind {
    pub children: ChildKinds,
}

pub trait ExtensionCommon: Send + Sync {
    fn symbol(&self) -> &str;
    fn id(&self) -> &str;
    fn kind(&self) -> ExtensionKind;
}

pub trait ExpressionExtension: ExtensionCommon {
    fn is_a_type_constructor(&self) -> bool;
    fn verify_type(&self, ty: &Type, exprs: &[Expression], preds: &[Predicate]) -> bool;
    fn synthesize_type(&self, exprs: &[Expression], preds: &[Predicate]) -> Option<Type>;
}

pub trait PredicateExtension: ExtensionCommon {}

#[derive(Clone)]
pub enum Extension {
    Expr(Arc<dyn ExpressionExtension>),
}

impl Extension {
    pub fn identity(&self) -> usize {
        let Extension::Expr(e) = self;
        Arc::as_ptr(e) as *const () as usize
    }

    pub fn common(&self) -> &dyn ExtensionCommon {
        let Extension::Expr(e) = self;
        e.as_ref()
    }
}
