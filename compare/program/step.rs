//! The dispatch of docs/FRAMES.md over the source's functions, the step at a place and the run.
use rossi::formula::tag::{AtomicOp, RelationalOp};
use rossi::formula::{Expression, ExpressionKind, Predicate, PredicateKind};

use crate::frame::{self, FRAME_LIMIT, Place};
use crate::reasoners::auto_rewriter::{
    rewrite_equals_empty_set, rewrite_equals_type, rewrite_finite, rewrite_not, rewrite_partition,
};
use crate::reasoners::rewrites::simplify_predicate_node;
use crate::{rules, text};

/// What the source's rules make of a node, behind the number of the place that made it.
pub fn rewritten(p: &Predicate) -> Option<(u8, Predicate)> {
    let logic = || simplify_predicate_node(p).map(|q| (rules::simplify(p, &q), q));
    match p.kind() {
        PredicateKind::Not(inner) => logic().or_else(|| rewrite_not(p).map(|q| (rules::rewrite_not(inner), q))),
        PredicateKind::Simple(e) => rewrite_finite(p, e).map(|q| (rules::by_tag(rules::FINITE, e.tag()), q)),
        PredicateKind::Multiple(parts) => rewrite_partition(p, parts).map(|q| (13 + parts.len() as u8, q)),
        PredicateKind::Relational { op, left, right } => relational(p, *op, left, right),
        _ => logic(),
    }
}

fn is_empty_set(e: &Expression) -> bool {
    matches!(e.kind(), ExpressionKind::Atomic(AtomicOp::EmptySet))
}

/// "the type expression of its own elements"
fn is_own_type(e: &Expression) -> bool {
    e.ty().and_then(|t| t.base_type()).is_some_and(|t| t.to_expression(e.factory()) == *e)
}

/// "Added by us" in docs/FRAMES.md.
fn relational(p: &Predicate, op: RelationalOp, left: &Expression, right: &Expression) -> Option<(u8, Predicate)> {
    let empty = |e: &Expression| rewrite_equals_empty_set(p, e).map(|q| (rules::equals_empty_set(e, &q), q));
    let ty = |e: &Expression| rewrite_equals_type(p, e).map(|q| (rules::by_tag(rules::EQUALS_TYPE, e.tag()), q));
    let equal = op == RelationalOp::Equal;
    let mut tried = Vec::new();
    if (equal || op == RelationalOp::SubsetEq) && is_empty_set(right) {
        tried.push(empty(left));
    } else if equal && is_empty_set(left) {
        tried.push(empty(right));
    }
    if equal && is_own_type(right) {
        tried.push(ty(left));
    }
    if equal && is_own_type(left) {
        tried.push(ty(right));
    }
    tried.into_iter().flatten().next()
}

/// The frame with the node at a place replaced, behind the number of the rule's place; `None` where no rule changes it.
pub fn replaced(bytes: &[u8], place: &Place) -> Option<(u8, Vec<u8>)> {
    let (rule, new) = rewritten(place.pred.as_ref()?)?;
    let mut out = bytes[..place.start].to_vec();
    text::put_pred(&new, &mut out);
    out.extend_from_slice(&bytes[place.end..]);
    Some((rule, out))
}

/// The rule and the new frame, `None` for unchanged, or the number.
pub fn step(bytes: &[u8], place: u64, lent: u64) -> Result<Option<(u8, Vec<u8>)>, u8> {
    let places = frame::read(bytes)?;
    let place = places.get(place as usize).filter(|p| p.pred.is_some()).ok_or(11)?;
    match replaced(bytes, place) {
        Some((_, new)) if new.len() > FRAME_LIMIT || new.len() as u64 > lent => Err(12),
        answer => Ok(answer),
    }
}

/// The word, the count of changing steps and the last frame, or the number.
pub fn run(bytes: &[u8], budget: u64, lent: u64) -> Result<(&'static str, u64, Vec<u8>), u8> {
    let mut frame = bytes.to_vec();
    let mut count = 0;
    loop {
        let places = frame::read(&frame)?;
        if lent < FRAME_LIMIT as u64 {
            return Err(12);
        }
        match places.iter().find_map(|p| replaced(&frame, p)) {
            None => return Ok(("REST", count, frame)),
            Some(_) if count == budget => return Ok(("SPENT", count, frame)),
            Some((_, new)) if new.len() > FRAME_LIMIT => return Ok(("FULL", count, frame)),
            Some((_, new)) => frame = new,
        }
        count += 1;
    }
}
