//! Stand-in: predicates, with the variants and fields that the source's files name; their hashes and sameness, after those of
//! expressions in expression.rs; and their typing rules (docs/FRAMES.md, number 10; the Event-B Mathematical Language).
use std::sync::Arc;

use crate::ast::Span;

use super::decl::BoundIdentDecl;
use super::expression::Expression;
use super::factory::FormulaFactory;
use super::hashing::{combine, fold};
use super::tag::{self, AssocPredOp, BinaryPredOp, LiteralPredOp, QuantPredOp, RelationalOp, Tag};
use super::types::Type;

#[derive(Debug, Clone)]
pub struct Predicate(pub(super) Arc<PredData>);

/// What the source's files keep of a predicate, and of an assignment.
#[derive(Debug)]
pub(super) struct Data<Kind> {
    pub(super) kind: Kind,
    pub(super) typed: bool,
    pub(super) span: Option<Span>,
    pub(super) hash: u64,
    pub(super) free_idents: Box<[String]>,
    pub(super) dangling: Box<[u32]>,
    pub(super) factory: FormulaFactory,
}

pub(super) type PredData = Data<PredicateKind>;

#[derive(Debug)]
pub enum PredicateKind {
    Literal(LiteralPredOp),
    Relational { op: RelationalOp, left: Expression, right: Expression },
    Binary { op: BinaryPredOp, left: Predicate, right: Predicate },
    Associative { op: AssocPredOp, children: Vec<Predicate> },
    Not(Predicate),
    Quantified { op: QuantPredOp, decls: Vec<BoundIdentDecl>, pred: Predicate },
    Simple(Expression),
    Multiple(Vec<Expression>),
    // these three are in no frame
    PredicateVariable(String),
    Application { function: String, function_span: Option<Span>, args: Vec<Expression> },
    Extended { tag: Tag, exprs: Vec<Expression>, preds: Vec<Predicate> },
}

impl Predicate {
    pub fn kind(&self) -> &PredicateKind {
        &self.0.kind
    }

    pub fn is_type_checked(&self) -> bool {
        self.0.typed
    }

    pub fn factory(&self) -> &FormulaFactory {
        &self.0.factory
    }

    pub fn dangling_bound_indices(&self) -> &[u32] {
        &self.0.dangling
    }
}

impl PartialEq for Predicate {
    fn eq(&self, other: &Self) -> bool {
        Arc::ptr_eq(&self.0, &other.0) || self.0.hash == other.0.hash && self.0.kind == other.0.kind
    }
}

/// Of declarations the types tell, the names don't.
impl PartialEq for PredicateKind {
    fn eq(&self, other: &Self) -> bool {
        use PredicateKind as K;
        match (self, other) {
            (K::Literal(a), K::Literal(b)) => a == b,
            (K::Relational { op: a, left: l, right: r }, K::Relational { op: b, left, right }) => a == b && l == left && r == right,
            (K::Binary { op: a, left: l, right: r }, K::Binary { op: b, left, right }) => a == b && l == left && r == right,
            (K::Associative { op: a, children: c }, K::Associative { op: b, children }) => a == b && c == children,
            (K::Not(a), K::Not(b)) => a == b,
            (K::Quantified { op: a, decls: d, pred: p }, K::Quantified { op: b, decls, pred }) => {
                a == b && d.len() == decls.len() && d.iter().zip(decls).all(|(x, y)| x.alpha_eq(y)) && p == pred
            }
            (K::Simple(a), K::Simple(b)) => a == b,
            (K::Multiple(a), K::Multiple(b)) => a == b,
            _ => false,
        }
    }
}

fn kind_tag(kind: &PredicateKind) -> Tag {
    use PredicateKind as K;
    match kind {
        K::Literal(op) => op.tag(),
        K::Relational { op, .. } => op.tag(),
        K::Binary { op, .. } => op.tag(),
        K::Associative { op, .. } => op.tag(),
        K::Not(_) => tag::FIRST_UNARY_PREDICATE,
        K::Quantified { op, .. } => op.tag(),
        K::Simple(_) => tag::FIRST_SIMPLE_PREDICATE,
        K::Multiple(_) => tag::FIRST_MULTIPLE_PREDICATE,
        K::PredicateVariable(_) => tag::PREDICATE_VARIABLE,
        K::Application { .. } => tag::PRED_APPL,
        K::Extended { tag, .. } => *tag,
    }
}

/// Children first, then the tag; of declarations their count.
pub(super) fn kind_hash(kind: &PredicateKind) -> u64 {
    use PredicateKind as K;
    let children = match kind {
        K::Literal(_) => 0,
        K::Relational { left, right, .. } => combine(left.0.hash, right.0.hash),
        K::Binary { left, right, .. } => combine(left.0.hash, right.0.hash),
        K::Associative { children, .. } => fold(children.iter().map(|p| p.0.hash)),
        K::Not(inner) => inner.0.hash,
        K::Quantified { decls, pred, .. } => combine(decls.len() as u64, pred.0.hash),
        K::Simple(e) => e.0.hash,
        K::Multiple(parts) => fold(parts.iter().map(|e| e.0.hash)),
        K::PredicateVariable(_) | K::Application { .. } | K::Extended { .. } => 0,
    };
    combine(children, u64::from(kind_tag(kind)))
}

pub(super) fn kind_typed(kind: &PredicateKind) -> bool {
    use PredicateKind as K;
    match kind {
        K::Literal(_) => true,
        K::Relational { op, left, right } => match (left.ty(), right.ty()) {
            (Some(left), Some(right)) => relation_typed(*op, left, right),
            _ => false,
        },
        K::Binary { left, right, .. } => left.0.typed && right.0.typed,
        K::Associative { children, .. } => children.iter().all(|c| c.0.typed),
        K::Not(inner) => inner.0.typed,
        K::Quantified { pred, .. } => pred.0.typed,
        K::Simple(e) => is_set(e),
        K::Multiple(parts) => is_set(&parts[0]) && parts.iter().all(|e| e.ty() == parts[0].ty()),
        K::PredicateVariable(_) | K::Application { .. } | K::Extended { .. } => false,
    }
}

fn is_set(e: &Expression) -> bool {
    matches!(e.ty(), Some(Type::Pow(_)))
}

fn relation_typed(op: RelationalOp, left: &Type, right: &Type) -> bool {
    use RelationalOp::*;
    match op {
        Equal | NotEqual => left == right,
        Lt | Le | Gt | Ge => *left == Type::Int && *right == Type::Int,
        In | NotIn => right.base_type() == Some(left),
        Subset | NotSubset | SubsetEq | NotSubsetEq => left == right && left.base_type().is_some(),
    }
}
