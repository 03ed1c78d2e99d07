//! Stand-in: the five types of docs/FRAMES.md and their type expressions ("The type record").
use std::sync::Arc;

use super::expression::Expression;
use super::factory::FormulaFactory;
use super::tag::{AtomicOp, BinaryExprOp, UnaryExprOp};

#[derive(Debug, Clone, PartialEq)]
pub enum Type {
    Bool,
    Int,
    /// Named as its identifier is: i and the number.
    Given(String),
    Pow(Arc<Type>),
    Prod(Arc<Type>, Arc<Type>),
}

impl Type {
    pub fn pow(base: Type) -> Type {
        Type::Pow(Arc::new(base))
    }

    pub fn prod(left: Type, right: Type) -> Type {
        Type::Prod(Arc::new(left), Arc::new(right))
    }

    pub fn relation(source: Type, target: Type) -> Type {
        Type::pow(Type::prod(source, target))
    }

    pub fn base_type(&self) -> Option<&Type> {
        if let Type::Pow(base) = self { Some(base) } else { None }
    }

    fn pair(&self) -> Option<(&Type, &Type)> {
        if let Type::Prod(s, t) = self.base_type()? { Some((s, t)) } else { None }
    }

    pub fn source(&self) -> Option<&Type> {
        Some(self.pair()?.0)
    }

    pub fn target(&self) -> Option<&Type> {
        Some(self.pair()?.1)
    }

    pub fn to_expression(&self, ff: &FormulaFactory) -> Expression {
        match self {
            Type::Bool => ff.atomic_expression(AtomicOp::Bool, None, None),
            Type::Int => ff.atomic_expression(AtomicOp::Integer, None, None),
            Type::Given(n) => ff.free_identifier(n.clone(), None, Some(Type::pow(self.clone()))),
            Type::Pow(t) => ff.unary_expression(UnaryExprOp::Pow, t.to_expression(ff), None),
            Type::Prod(s, t) => {
                let (s, t) = (s.to_expression(ff), t.to_expression(ff));
                ff.binary_expression(BinaryExprOp::CProd, s, t, None)
            }
        }
    }

    /// Goes into a declaration's cache of names, which is not kept here.
    pub fn collect_given_sets(&self, _names: &mut Vec<String>) {}
}
