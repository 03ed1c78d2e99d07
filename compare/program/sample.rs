//! The steps that crates/replay answers: every rule's left side, its neighbours, the refusals, the limits.
use std::collections::HashSet;

use rossi::formula::Type;

use crate::bytes::{Bytes, TRUE, bound, many, named, node, quantified, type_expression, typed};
use crate::frame::{self, FRAME_LIMIT, Place};
use crate::lines::{Lines, line, operands};
use crate::step::{replaced, step};
use crate::text::to_hex;

const SHORT: usize = 120;

/// The rule that changes this place.
fn rule_at(bytes: &[u8], place: usize) -> Option<u8> {
    let places = frame::read(bytes).ok()?;
    replaced(bytes, places.get(place)?).map(|(rule, _)| rule)
}

/// The tags of a node and of its operands.
fn form(bytes: &[u8], places: &[Place], at: usize) -> Vec<u8> {
    let nodes = [vec![at], operands(places, at)].concat();
    nodes.iter().flat_map(|k| bytes[places[*k].start..][..2].to_vec()).collect()
}

impl Lines {
    /// The rule's left side by itself, under binders, or as a part of something else.
    fn around(&mut self, rule: u8, how: usize) -> Bytes {
        let g = &mut self.g;
        let room = 2 + g.random.below(4) as i32;
        g.restart(room);
        let binders = g.new_binders();
        match (how, g.random.below(4)) {
            (0, _) => g.left_side(rule),
            (1, 0 | 1) => {
                let body = g.under(&binders, |g| g.left_side(rule));
                quantified(g.random.of(&[851, 852]), &binders, &[body])
            }
            (1, _) => {
                let kids = g.under(&binders, |g| [g.left_side(rule), g.expr(&Type::Bool)]);
                node(620, &[quantified(803, &binders, &kids)])
            }
            (_, 0) => node(701, &[g.left_side(rule)]),
            (_, 1) => node(101, &[node(601, &[g.left_side(rule)]), g.expr(&Type::Bool)]),
            (_, 2) => node(g.random.of(&[251, 252]), &[g.pred(), g.left_side(rule)]),
            _ => many(g.random.of(&[351, 352]), &[g.left_side(rule), g.pred()]),
        }
    }

    /// A short frame that the rule changes, and the place; of another form than those seen, if one is found.
    fn changed(&mut self, rule: u8, how: usize, seen: &mut HashSet<Vec<u8>>) -> (usize, Bytes) {
        let mut tries = 100;
        loop {
            let bytes = self.around(rule, how);
            let places = frame::read(&bytes).unwrap_or_default();
            let place = (if how == 0 { 0 } else { 1 }..places.len()).find(|k| rule_at(&bytes, *k) == Some(rule));
            if let (Some(place), true) = (place, bytes.len() <= SHORT) {
                tries -= 1;
                if seen.insert(form(&bytes, &places, place)) || tries == 0 {
                    return (place, bytes);
                }
            }
        }
    }

    /// One thing altered at the place or below it, so that no rule changes the place, or another one if none such is found.
    fn neighbour(&mut self, bytes: &[u8], place: usize) -> Bytes {
        let rule = rule_at(bytes, place);
        let tries: Vec<Bytes> = (0..400).map(|_| self.altered(bytes, place)).filter(|b| frame::read(b).is_ok()).collect();
        let unchanged = tries.iter().find(|b| rule_at(b, place).is_none());
        let other = tries.iter().find(|b| rule_at(b, place) != rule);
        unchanged.or(other).or(tries.first()).expect("a neighbour").clone()
    }

    fn rule_lines(&mut self, rule: u8, out: &mut Vec<String>) {
        let mut seen = HashSet::new();
        for how in [0, 1, 2, 0] {
            let (place, bytes) = self.changed(rule, how, &mut seen);
            let (_, new) = step(&bytes, place as u64, 8192).ok().flatten().expect("changed");
            let mut push = |lent: usize, bytes: &[u8]| out.push(line(place as u64, lent, bytes));
            match how {
                0 => push(4096, &bytes),
                1 => [new.len(), new.len() - 1].into_iter().for_each(|n| push(n, &bytes)),
                _ => push(8192, &bytes),
            }
            push(4096, &self.neighbour(&bytes, place));
        }
    }

    /// Frames with each of the numbers 3 to 10.
    fn refused_lines(&mut self, out: &mut Vec<String>) {
        for number in 3..=10 {
            let mut wanted = 6;
            while wanted > 0 {
                let whole = self.frame();
                let bytes = if self.g.random.one_in(2) { self.altered(&whole, 0) } else { self.damaged(&whole) };
                if bytes.len() <= SHORT && frame::read(&bytes).is_err_and(|n| n == number) {
                    out.push(line(self.g.random.below(3) as u64, self.g.random.of(&[0, 4096, 8192]), &bytes));
                    wanted -= 1;
                }
            }
        }
    }

    /// Places that are expressions, or no nodes.
    fn place_lines(&mut self, out: &mut Vec<String>) {
        for _ in 0..5 {
            let whole = std::iter::repeat_with(|| self.frame()).find(|f| (20..SHORT).contains(&f.len())).expect("a frame");
            let places = frame::read(&whole).expect("accepted");
            let n = places.len() as u64;
            for place in [n - 1, n, n + 1, 2047, 2048, 65536, 1 << 32, (1 << 32) + n - 1, 1 << 63, u64::MAX] {
                out.push(line(place, 4096, &whole));
            }
            let expressions = (0..places.len()).filter(|k| places[*k].pred.is_none()).take(4);
            out.extend(expressions.map(|k| line(k as u64, 0, &whole)));
        }
    }
}

fn truth() -> Bytes {
    node(TRUE, &[])
}

fn nots(n: usize) -> Bytes {
    [node(701, &[]).repeat(n), truth()].concat()
}

fn equal(left: &Bytes, right: &Bytes) -> Bytes {
    node(101, &[left.clone(), right.clone()])
}

/// ∀ with 32 binders over ∧ of n, whose result has 3 + 35 × n bytes and what the operands have.
fn wide_forall(operands: Vec<Bytes>) -> Bytes {
    quantified(851, &vec![Type::Bool; 32], &[many(351, &operands)])
}

/// Results of 4,095 to 4,098 bytes, and some far longer.
fn length_lines(out: &mut Vec<String>) {
    let small = equal(&named(7, &Type::Bool), &node(405, &[]));
    for total in FRAME_LIMIT - 1..=FRAME_LIMIT + 2 {
        let rest = total - 3 - 35 * 100 - 2 * 98;
        let last = if rest % 2 == 0 { [truth(), nots((rest - 4) / 2)] } else { [small.clone(), nots((rest - 11) / 2)] };
        let frame = wide_forall([vec![truth(); 98], last.to_vec()].concat());
        for lent in [total - 1, total, 4095, 4096, 4097, 8192] {
            out.push(line(0, lent, &frame));
        }
    }
    out.push(line(0, 8192, &wide_forall(vec![truth(); 255])));
    for place in [2, 3] {
        out.push(line(place, 8192, &node(701, &[node(701, &[wide_forall(vec![small.clone(); 240])])])));
    }
    // the longest frames, and one byte more
    for place in [0, 1, 2046, 2047, 2048] {
        out.push(line(place, 4096, &nots(2047)));
    }
    out.push(line(2045, 4092, &nots(2047)));
    out.push(line(2045, 4091, &nots(2047)));
    out.push(line(0, 4096, &[nots(2047), vec![0]].concat()));
    out.push(line(0, 4096, &vec![0; 5000]));
    out.push(line(0, 4096, &[]));
}

/// Counts and types at their limits.
fn limit_lines(out: &mut Vec<String>) {
    for n in [1, 32, 33, 255] {
        out.push(line(0, 4096, &quantified(852, &vec![Type::Bool; n], &[many(352, &[truth(), truth()])])));
    }
    for n in [1, 2, 255] {
        out.push(line(0, 4096, &many(351, &vec![truth(); n])));
        out.push(line(0, 4096, &many(901, &vec![typed(407, &Type::pow(Type::Bool)); n])));
    }
    out.push(line(0, 4096, &many(901, &[])));
    for powers in 61..=64 {
        let ty = (0..powers).fold(Type::Bool, |t, _| Type::pow(t));
        out.push(line(0, 4096, &equal(&named(1, &ty), &typed(407, &ty))));
        out.push(line(0, 4096, &node(620, &[many(5, &[named(1, &ty)])])));
        out.push(line(
            0,
            4096,
            &equal(&node(755, &[named(1, &ty)]), &type_expression(ty.base_type().unwrap().base_type().unwrap())),
        ));
    }
}

/// "Frames to try" and "Where students and ports slip" of docs/FRAMES.md.
fn document_lines(out: &mut Vec<String>) {
    let (bool, set) = (Type::Bool, Type::pow(Type::Bool));
    let relation = Type::relation(Type::Bool, Type::Bool);
    let (a, b) = (named(8, &bool), named(7, &bool));
    let (s, t) = (named(1, &set), named(2, &set));
    let [p, q, r] = [3, 4, 5].map(|n| named(n, &relation));
    let holds = equal(&b, &node(405, &[]));
    let not = |x: &Bytes| node(701, &[x.clone()]);
    let empty = |e: Bytes, ty: &Type| equal(&e, &typed(407, ty));
    let (x, y) = (named(20, &Type::Int), named(21, &Type::Int));
    let single = |e: &Bytes| many(5, &[e.clone()]);
    let frames = [
        not(&truth()),
        many(351, &[truth(), truth()]),
        many(351, &[holds.clone(), not(&holds)]),
        node(251, &[holds.clone(), not(&holds)]),
        not(&equal(&b, &node(406, &[]))),
        many(901, &[s.clone()]),
        many(901, &[s.clone(), t.clone()]),
        many(901, &[s.clone(), t.clone(), s.clone()]),
        empty(many(302, &[single(&a), single(&b)]), &set),
        empty(many(302, &[single(&a), single(&b), s.clone()]), &set),
        empty(many(304, &[p.clone(), q.clone(), r]), &relation),
        not(&node(104, &[x, y])),
        node(620, &[node(214, &[s.clone(), t.clone()])]),
        empty(node(204, &[s, t]), &Type::pow(relation.clone())),
        empty(many(303, &[p.clone(), q.clone()]), &relation),
        empty(many(304, &[p, q]), &relation),
        node(620, &[quantified(803, &[bool.clone(), bool.clone()], &[truth(), node(201, &[bound(0), bound(1)])])]),
    ];
    out.extend(frames.iter().map(|f| line(0, 4096, f)));
}

/// Negations that are unwrapped, on both sides.
fn negation_lines(out: &mut Vec<String>) {
    let [p, q] = [7, 8].map(|n| equal(&named(n, &Type::Bool), &node(405, &[])));
    let not = |x: &Bytes| node(701, &[x.clone()]);
    let lie = node(611, &[]);
    for tag in [251, 252] {
        for sides in [[not(&p), lie.clone()], [lie.clone(), not(&p)], [not(&not(&p)), not(&p)], [not(&p), not(&not(&p))]] {
            out.push(line(0, 4096, &node(tag, &sides)));
        }
    }
    for (one, conclusion) in [(not(&p), p.clone()), (p.clone(), not(&p)), (not(&not(&p)), not(&p)), (not(&p), not(&not(&p)))] {
        let among = |tag| node(251, &[many(tag, &[q.clone(), one.clone()]), conclusion.clone()]);
        out.push(line(0, 4096, &among(351)));
        out.push(line(0, 4096, &among(352)));
        out.push(line(0, 4096, &many(352, &[q.clone(), one.clone(), conclusion.clone()])));
    }
}

/// finite({x·⊤ ∣ E ↦ F}), its binders recovered or not.
fn comprehension_lines(out: &mut Vec<String>) {
    let pair = |l: &Bytes, r: &Bytes| node(201, &[l.clone(), r.clone()]);
    let single = |e: Bytes| many(5, &[e]);
    let inside = |index| quantified(803, &[Type::Bool], &[truth(), bound(index)]);
    let [x, y, outer] = [1, 0, 2].map(bound);
    let values = [
        pair(&y, &x),
        pair(&x, &y),
        pair(&y, &outer),
        pair(&outer, &y),
        pair(&pair(&x, &y), &pair(&y, &x)),
        pair(&pair(&x, &outer), &pair(&outer, &x)),
        pair(&pair(&x, &outer), &y),
        pair(&single(x.clone()), &x),
        pair(&pair(&single(y.clone()), &x), &x),
        pair(&x, &inside(2)),
        pair(&y, &inside(2)),
        pair(&y, &inside(0)),
        pair(&y, &inside(3)),
        pair(&inside(2), &x),
        pair(&node(405, &[]), &node(405, &[])),
        y.clone(),
    ];
    for value in values {
        let set = quantified(803, &[Type::Bool, Type::Bool], &[truth(), value]);
        out.push(line(1, 4096, &quantified(851, &[Type::Bool], &[node(620, &[set])])));
    }
    for index in [0, 30, 31] {
        let set = quantified(803, &vec![Type::Bool; 32], &[truth(), pair(&bound(31), &bound(index))]);
        out.push(line(0, 4096, &node(620, &[set])));
    }
}

/// The type expression of its own elements and what is none; ∅ on either side of a relation.
fn type_lines(out: &mut Vec<String>) {
    let (set, bools) = (Type::pow(Type::Bool), node(404, &[]));
    let relations = Type::relation(Type::Bool, Type::Bool);
    let [r, s] = [3, 4].map(|n| named(n, &Type::pow(relations.clone())));
    let both = many(302, &[r, s]);
    let all = type_expression(&relations);
    let arrow = node(202, &[bools.clone(), bools.clone()]);
    for (tag, other) in [(101, &all), (101, &arrow), (111, &all), (102, &all)] {
        out.push(line(0, 4096, &node(tag, &[both.clone(), other.clone()])));
        out.push(line(0, 4096, &node(tag, &[other.clone(), both.clone()])));
    }
    let empty = typed(407, &set);
    for side in [bools.clone(), empty.clone(), many(301, &[empty.clone(), bools]), named(1, &set)] {
        for tag in [101, 102, 111] {
            out.push(line(0, 4096, &node(tag, &[side.clone(), empty.clone()])));
            out.push(line(0, 4096, &node(tag, &[empty.clone(), side.clone()])));
        }
    }
}

/// Lines of another form.
fn malformed_lines(out: &mut Vec<String>) {
    let forms = [
        "",
        " ",
        "0",
        "0 ",
        "0 4096",
        "0 4096 026",
        "0 4096 0262 ",
        "0 4096  0262",
        " 0 4096 0262",
        "0  4096 0262",
        "x 4096 0262",
        "0 x 0262",
        "-1 4096 0262",
        "0 8193 0262",
        "0 99999999999999999999 0262",
        "18446744073709551616 4096 0262",
        "0 4096 026a",
        "0 4096 02G2",
        "02BD0262",
        "00 04096 02BD0262",
    ];
    out.extend(forms.map(String::from));
    // number 1 looks at the whole line, then comes number 2
    out.push(format!("0 4096 {}", "A".repeat(8194)));
    out.push(format!("0 4096 {}", "A".repeat(8195)));
    out.push(format!("0 4096 {}x", to_hex(&nots(2047))));
}

pub fn lines(seed: u64) -> Vec<String> {
    let mut made = Lines::new(seed);
    let mut out = Vec::new();
    document_lines(&mut out);
    negation_lines(&mut out);
    comprehension_lines(&mut out);
    type_lines(&mut out);
    (1..=87).for_each(|rule| made.rule_lines(rule, &mut out));
    made.refused_lines(&mut out);
    made.place_lines(&mut out);
    length_lines(&mut out);
    limit_lines(&mut out);
    malformed_lines(&mut out);
    let mut seen = HashSet::new();
    out.retain(|l| seen.insert(l.clone()));
    out
}
