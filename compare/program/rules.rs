//! Which place of docs/RULES.md answered. The source doesn't say; this is read off its text, and only counts: no answer rests
//! on it.
use rossi::formula::tag::{AssocPredOp, AtomicOp, LiteralPredOp, QuantPredOp};
use rossi::formula::{Expression, ExpressionKind, Predicate, PredicateKind};

use crate::reasoners::make_neg;

/// Places by the tag of the expression that a function looks at.
pub type Table = &'static [(u8, &'static [u16])];

pub const FINITE: Table = &[
    (1, &[407]),
    (2, &[401, 402, 403]),
    (3, &[404]),
    (4, &[412]),
    (5, &[5]),
    (6, &[301]),
    (7, &[752]),
    (8, &[214]),
    (9, &[763]),
    (10, &[221]),
    (11, &[803]),
    (12, &[217]),
    (13, &[410, 411]),
];
pub const EQUALS_TYPE: Table = &[
    (24, &[302]),
    (25, &[213]),
    (26, &[214]),
    (27, &[221]),
    (28, &[217]),
    (29, &[218]),
    (30, &[219]),
    (31, &[220]),
    (32, &[215, 216]),
    (33, &[755]),
    (34, &[763]),
    (35, &[802]),
];
pub const EQUALS_EMPTY_SET: Table = &[
    (36, &[5]),
    (37, &[302]),
    (38, &[302]),
    (39, &[301]),
    (40, &[213]),
    (41, &[214]),
    (42, &[221]),
    (43, &[204]),
    (44, &[205]),
    (45, &[217]),
    (46, &[218]),
    (47, &[219]),
    (48, &[220]),
    (49, &[227]),
    (50, &[215]),
    (51, &[216]),
    (52, &[752]),
    (53, &[753]),
    (54, &[754]),
    (55, &[756, 757, 763]),
    (56, &[304]),
    (57, &[303]),
    (58, &[305]),
    (59, &[801]),
    (60, &[402, 403]),
    (61, &[410, 411, 412]),
];
/// ¬ of a relation between integers.
pub const NOT: Table = &[(16, &[104]), (17, &[106]), (18, &[105]), (19, &[103])];

pub fn by_tag(table: Table, tag: u32) -> u8 {
    table.iter().find(|(_, tags)| tags.iter().any(|t| u32::from(*t) == tag)).expect("a place").0
}

pub fn equals_empty_set(e: &Expression, new: &Predicate) -> u8 {
    match (by_tag(EQUALS_EMPTY_SET, e.tag()), new.kind()) {
        (37, PredicateKind::Relational { .. }) => 38,
        (place, _) => place,
    }
}

fn is(p: &Predicate, op: LiteralPredOp) -> bool {
    *p.kind() == PredicateKind::Literal(op)
}

fn is_atom(e: &Expression, op: AtomicOp) -> bool {
    matches!(e.kind(), ExpressionKind::Atomic(found) if *found == op)
}

fn negates(p: &Predicate, q: &Predicate) -> bool {
    matches!(p.kind(), PredicateKind::Not(inner) if inner == q)
}

/// The first test that holds, counted from `from`.
fn first(from: u8, tests: &[bool]) -> u8 {
    from + tests.iter().position(|t| *t).expect("a place") as u8
}

pub fn rewrite_not(inner: &Predicate) -> u8 {
    use AtomicOp::{False, True};
    match inner.kind() {
        PredicateKind::Relational { op, left, right } => match op.tag() {
            101 => first(20, &[is_atom(right, False), is_atom(right, True), is_atom(left, False), is_atom(left, True)]),
            tag => by_tag(NOT, tag),
        },
        _ => unreachable!("a relation"),
    }
}

/// `simplify_predicate_node`, which made `new` of `p`.
pub fn simplify(p: &Predicate, new: &Predicate) -> u8 {
    use LiteralPredOp::{BFalse, BTrue};
    use PredicateKind as K;
    match p.kind() {
        K::Associative { op, children } => {
            let (neutral, determinant) = if *op == AssocPredOp::LAnd { (BTrue, BFalse) } else { (BFalse, BTrue) };
            first(62, &[is(new, determinant), is(new, neutral), children.contains(new), true])
        }
        K::Binary { op, left, right } if op.tag() == 251 => {
            let conjuncts: &[Predicate] = match left.kind() {
                K::Associative { op: AssocPredOp::LAnd, children } => children,
                _ => &[],
            };
            let tests = [
                is(left, BTrue),
                is(left, BFalse),
                is(right, BTrue),
                is(right, BFalse),
                left == right,
                conjuncts.contains(right),
                conjuncts.contains(&make_neg(right)),
                negates(left, right),
                negates(right, left),
            ];
            first(66, &tests)
        }
        K::Binary { left, right, .. } => {
            let tests = [
                is(right, BTrue),
                is(left, BTrue),
                left == right,
                is(right, BFalse),
                is(left, BFalse),
                negates(right, left),
                negates(left, right),
            ];
            first(75, &tests)
        }
        K::Not(inner) => first(82, &[is(inner, BTrue), is(inner, BFalse), true]),
        K::Quantified { op, pred, .. } => {
            let over_or = matches!(pred.kind(), K::Associative { .. });
            first(85, &[*op == QuantPredOp::Forall, over_or, true])
        }
        _ => unreachable!("a node of logic"),
    }
}
