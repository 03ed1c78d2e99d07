//! Frames as text (number 1), and the bytes of the source's trees.
use rossi::formula::decl::BoundIdentDecl;
use rossi::formula::tag::*;
use rossi::formula::{Expression, ExpressionKind, Predicate, PredicateKind, Type};

use crate::frame::{Body, row};

pub fn from_hex(text: &[u8]) -> Result<Vec<u8>, u8> {
    let digit = |c: u8| match c {
        b'0'..=b'9' => Ok(c - b'0'),
        b'A'..=b'F' => Ok(c - b'A' + 10),
        _ => Err(1),
    };
    if text.len() % 2 == 1 {
        return Err(1);
    }
    text.chunks(2).map(|c| Ok(digit(c[0])? << 4 | digit(c[1])?)).collect()
}

pub fn to_hex(bytes: &[u8]) -> String {
    bytes.iter().map(|b| format!("{b:02X}")).collect()
}

fn put_name(name: &str, out: &mut Vec<u8>) {
    let number: u16 = name[1..].parse().expect("i and a number");
    out.extend(number.to_be_bytes());
}

pub fn put_type(ty: &Type, out: &mut Vec<u8>) {
    match ty {
        Type::Bool => out.push(0),
        Type::Int => out.push(1),
        Type::Given(name) => {
            out.push(2);
            put_name(name, out);
        }
        Type::Pow(t) => {
            out.push(3);
            put_type(t, out);
        }
        Type::Prod(s, t) => {
            out.push(4);
            put_type(s, out);
            put_type(t, out);
        }
    }
}

fn put_tag(tag: Tag, out: &mut Vec<u8>) {
    out.extend((tag as u16).to_be_bytes());
}

fn put_count(n: usize, out: &mut Vec<u8>) {
    out.push(n.try_into().expect("a count of at most 255"));
}

fn put_decls(decls: &[BoundIdentDecl], out: &mut Vec<u8>) {
    put_count(decls.len(), out);
    decls.iter().for_each(|d| put_type(d.ty().expect("typed"), out));
}

fn put_many<T>(parts: &[T], put: fn(&T, &mut Vec<u8>), out: &mut Vec<u8>) {
    put_count(parts.len(), out);
    parts.iter().for_each(|x| put(x, out));
}

pub fn put_expr(e: &Expression, out: &mut Vec<u8>) {
    use ExpressionKind as K;
    put_tag(e.tag(), out);
    match e.kind() {
        K::FreeIdentifier(name) => {
            put_name(name, out);
            put_type(e.ty().expect("typed"), out);
        }
        K::BoundIdentifier(i) => out.push(*i as u8),
        K::IntegerLiteral(v) => out.extend(v.to_be_bytes()),
        K::SetExtension(members) => put_many(members, put_expr, out),
        K::Atomic(_) => {
            if row(e.tag() as u16) == Some((false, Body::Leaf(0, 1))) {
                put_type(e.ty().expect("typed"), out);
            }
        }
        K::Bool(p) => put_pred(p, out),
        K::Binary { left, right, .. } => {
            put_expr(left, out);
            put_expr(right, out);
        }
        K::Associative { children, .. } => put_many(children, put_expr, out),
        K::Unary { child, .. } => put_expr(child, out),
        K::Quantified { decls, pred, expr, .. } => {
            put_decls(decls, out);
            put_pred(pred, out);
            put_expr(expr, out);
        }
        K::Ascription { .. } | K::Extended { .. } => unreachable!("in no frame"),
    }
}

pub fn put_pred(p: &Predicate, out: &mut Vec<u8>) {
    use PredicateKind as K;
    match p.kind() {
        K::Literal(op) => put_tag(op.tag(), out),
        K::Relational { op, left, right } => {
            put_tag(op.tag(), out);
            put_expr(left, out);
            put_expr(right, out);
        }
        K::Binary { op, left, right } => {
            put_tag(op.tag(), out);
            put_pred(left, out);
            put_pred(right, out);
        }
        K::Associative { op, children } => {
            put_tag(op.tag(), out);
            put_many(children, put_pred, out);
        }
        K::Not(inner) => {
            put_tag(FIRST_UNARY_PREDICATE, out);
            put_pred(inner, out);
        }
        K::Quantified { op, decls, pred } => {
            put_tag(op.tag(), out);
            put_decls(decls, out);
            put_pred(pred, out);
        }
        K::Simple(e) => {
            put_tag(FIRST_SIMPLE_PREDICATE, out);
            put_expr(e, out);
        }
        K::Multiple(parts) => {
            put_tag(FIRST_MULTIPLE_PREDICATE, out);
            put_many(parts, put_expr, out);
        }
        _ => unreachable!("in no frame"),
    }
}
