//! Stand-in: lets factory.rs compile. No frame holds an assignment.
use std::sync::Arc;

use super::decl::BoundIdentDecl;
use super::expression::Expression;
use super::predicate::{Data, Predicate};

pub struct Assignment(pub(super) Arc<AssignData>);

pub(super) type AssignData = Data<AssignmentKind>;

pub enum AssignmentKind {
    BecomesEqualTo { idents: Vec<Expression>, values: Vec<Expression> },
    BecomesMemberOf { idents: Vec<Expression>, set: Expression },
    BecomesSuchThat { idents: Vec<Expression>, primed: Vec<BoundIdentDecl>, pred: Predicate },
}

pub(super) fn kind_hash(_kind: &AssignmentKind) -> u64 {
    0
}

pub(super) fn kind_typed(_kind: &AssignmentKind) -> bool {
    false
}
