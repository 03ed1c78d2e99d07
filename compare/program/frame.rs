//! Reading frames, with the numbers 2 to 10 of docs/FRAMES.md. It goes twice over the bytes: `scan` finds the numbers 3 to 9, `Builder`
//! makes the source's trees and finds number 10.
use std::collections::{HashMap, HashSet};

use rossi::formula::decl::BoundIdentDecl;
use rossi::formula::tag::*;
use rossi::formula::{self, Expression, Form, FormulaFactory, Predicate, Type};

pub const FRAME_LIMIT: usize = 4096;
const TYPE_LIMIT: usize = 64;

// ---- the table of tags

#[derive(Clone, Copy, PartialEq, Debug)]
pub enum Body {
    /// so many bytes of a number, then as many types as the second says
    Leaf(usize, usize),
    /// a predicate ('p') or an expression ('e') for each letter
    Kids(&'static str),
    /// a count byte, at least the first, then as many of the second
    Many(u8, char),
    /// a count of binders and their types, then as `Kids`
    Binders(&'static str),
}

/// Whether it is a predicate, and what follows the tag.
pub fn row(tag: u16) -> Option<(bool, Body)> {
    use Body::*;
    Some(match tag {
        1 => (false, Leaf(2, 1)),
        3 => (false, Leaf(1, 0)),
        4 => (false, Leaf(8, 0)),
        5 => (false, Many(1, 'e')),
        101..=112 => (true, Kids("ee")),
        201..=227 => (false, Kids("ee")),
        251 | 252 => (true, Kids("pp")),
        301..=307 => (false, Many(2, 'e')),
        351 | 352 => (true, Many(2, 'p')),
        407 | 410..=412 => (false, Leaf(0, 1)),
        401..=409 => (false, Leaf(0, 0)),
        601 => (false, Kids("p")),
        610 | 611 => (true, Leaf(0, 0)),
        620 => (true, Kids("e")),
        701 => (true, Kids("p")),
        751..=757 | 761..=764 => (false, Kids("e")),
        801..=803 => (false, Binders("pe")),
        851 | 852 => (true, Binders("p")),
        901 => (true, Many(1, 'e')),
        _ => return None,
    })
}

// ---- numbers 3 to 9

#[derive(Default)]
struct Scan<'a> {
    bytes: &'a [u8],
    at: usize,
    unbound: bool,
    types_of: HashMap<u16, HashSet<&'a [u8]>>,
    given: HashSet<u16>,
}

impl<'a> Scan<'a> {
    fn take(&mut self, n: usize) -> Result<&'a [u8], u8> {
        let part = self.bytes.get(self.at..self.at + n).ok_or(3)?;
        self.at += n;
        Ok(part)
    }

    fn word(&mut self) -> Result<u16, u8> {
        let b = self.take(2)?;
        Ok(u16::from_be_bytes([b[0], b[1]]))
    }

    /// A byte of the type that began at `start`.
    fn type_byte(&mut self, start: usize) -> Result<u8, u8> {
        if self.at - start == TYPE_LIMIT {
            return Err(6);
        }
        Ok(self.take(1)?[0])
    }

    fn ty(&mut self) -> Result<&'a [u8], u8> {
        let start = self.at;
        let mut wanted = 1;
        while wanted > 0 {
            wanted -= 1;
            match self.type_byte(start)? {
                0 | 1 => {}
                2 => {
                    let n = [self.type_byte(start)?, self.type_byte(start)?];
                    self.given.insert(u16::from_be_bytes(n));
                }
                3 => wanted += 1,
                4 => wanted += 2,
                _ => return Err(6),
            }
        }
        Ok(&self.bytes[start..self.at])
    }

    fn count(&mut self, least: u8, most: u8) -> Result<u8, u8> {
        let n = self.take(1)?[0];
        if (least..=most).contains(&n) { Ok(n) } else { Err(5) }
    }

    fn node(&mut self, sort: char, binders: usize) -> Result<(), u8> {
        let tag = self.word()?;
        let (is_pred, body) = row(tag).ok_or(4)?;
        if is_pred != (sort == 'p') {
            return Err(4);
        }
        match body {
            Body::Leaf(2, _) => {
                let number = self.word()?;
                let ty = self.ty()?;
                self.types_of.entry(number).or_default().insert(ty);
            }
            Body::Leaf(n, types) => {
                let number = self.take(n)?;
                self.unbound |= tag == 3 && number[0] as usize >= binders;
                for _ in 0..types {
                    self.ty()?;
                }
            }
            Body::Kids(kids) => kids.chars().try_for_each(|k| self.node(k, binders))?,
            Body::Many(least, kid) => {
                for _ in 0..self.count(least, 255)? {
                    self.node(kid, binders)?;
                }
            }
            Body::Binders(kids) => {
                let n = self.count(1, 32)?;
                for _ in 0..n {
                    self.ty()?;
                }
                kids.chars().try_for_each(|k| self.node(k, binders + n as usize))?;
            }
        }
        Ok(())
    }

    fn names_clash(&self) -> bool {
        self.types_of.iter().any(|(n, types)| {
            let [hi, lo] = n.to_be_bytes();
            types.len() > 1 || self.given.contains(n) && !types.contains(&[3, 2, hi, lo][..])
        })
    }
}

fn scan(bytes: &[u8]) -> Result<(), u8> {
    let mut s = Scan { bytes, ..Scan::default() };
    s.node('p', 0)?;
    if s.at < bytes.len() {
        return Err(7);
    }
    if s.unbound {
        return Err(8);
    }
    if s.names_clash() { Err(9) } else { Ok(()) }
}

// ---- number 10, and the trees

/// A place: the node's bytes, and its tree if it is a predicate.
pub struct Place {
    pub start: usize,
    pub end: usize,
    pub pred: Option<Predicate>,
}

struct Builder<'a> {
    bytes: &'a [u8],
    at: usize,
    ff: FormulaFactory,
    binders: Vec<Type>,
    places: Vec<Place>,
}

fn find<T: Copy>(all: &[T], tag_of: impl Fn(T) -> Tag, tag: u16) -> T {
    *all.iter().find(|op| tag_of(**op) == Tag::from(tag)).expect("a tag of the table")
}

fn type_length(ty: &Type) -> usize {
    match ty {
        Type::Bool | Type::Int => 1,
        Type::Given(_) => 3,
        Type::Pow(t) => 1 + type_length(t),
        Type::Prod(s, t) => 1 + type_length(s) + type_length(t),
    }
}

impl Builder<'_> {
    fn number(&mut self, n: usize) -> u64 {
        let part = &self.bytes[self.at..self.at + n];
        self.at += n;
        part.iter().fold(0, |v, b| v << 8 | u64::from(*b))
    }

    fn ty(&mut self) -> Type {
        match self.number(1) {
            0 => Type::Bool,
            1 => Type::Int,
            2 => Type::Given(format!("i{}", self.number(2))),
            3 => Type::pow(self.ty()),
            _ => {
                let s = self.ty();
                Type::prod(s, self.ty())
            }
        }
    }

    fn decls(&mut self) -> Vec<BoundIdentDecl> {
        let types: Vec<Type> = (0..self.number(1)).map(|_| self.ty()).collect();
        self.binders.extend(types.iter().cloned());
        let named = types.into_iter().enumerate();
        named.map(|(k, t)| self.ff.bound_ident_decl(format!("b{k}"), None, None, Some(t))).collect()
    }

    fn exprs(&mut self) -> Result<Vec<Expression>, u8> {
        (0..self.number(1)).map(|_| self.expr()).collect()
    }

    fn preds(&mut self) -> Result<Vec<Predicate>, u8> {
        (0..self.number(1)).map(|_| self.pred()).collect()
    }

    fn begin(&mut self) -> (usize, u16) {
        self.places.push(Place { start: self.at, end: 0, pred: None });
        (self.places.len() - 1, self.number(2) as u16)
    }

    fn atom(&mut self, tag: u16) -> Result<Expression, u8> {
        let op = find(&AtomicOp::ALL, AtomicOp::tag, tag);
        let ty = (row(tag) == Some((false, Body::Leaf(0, 1)))).then(|| self.ty());
        if ty.as_ref().is_some_and(|t| !formula::fits(op, t)) {
            return Err(10);
        }
        Ok(self.ff.atomic_expression(op, None, ty))
    }

    fn expr(&mut self) -> Result<Expression, u8> {
        let (place, tag) = self.begin();
        let e = match tag {
            1 => {
                let name = format!("i{}", self.number(2));
                let ty = self.ty();
                self.ff.free_identifier(name, None, Some(ty))
            }
            3 => {
                let i = self.number(1) as usize;
                let ty = self.binders[self.binders.len() - 1 - i].clone();
                self.ff.bound_identifier(i as u32, None, Some(ty))
            }
            4 => {
                let v = self.number(8) as i64;
                self.ff.integer_literal(v, None)
            }
            5 => {
                let members = self.exprs()?;
                self.ff.set_extension(members, None)
            }
            201..=227 => {
                let (l, r) = (self.expr()?, self.expr()?);
                self.ff.binary_expression(find(&BinaryExprOp::ALL, BinaryExprOp::tag, tag), l, r, None)
            }
            301..=307 => {
                let kids = self.exprs()?;
                self.ff.associative_expression(find(&AssocExprOp::ALL, AssocExprOp::tag, tag), kids, None)
            }
            401..=412 => self.atom(tag)?,
            601 => {
                let p = self.pred()?;
                self.ff.bool_expression(p, None)
            }
            751..=764 => {
                let kid = self.expr()?;
                self.ff.unary_expression(find(&UnaryExprOp::ALL, UnaryExprOp::tag, tag), kid, None)
            }
            _ => {
                let around = self.binders.len();
                let decls = self.decls();
                let (p, e) = (self.pred()?, self.expr()?);
                self.binders.truncate(around);
                let op = find(&QuantExprOp::ALL, QuantExprOp::tag, tag);
                self.ff.quantified_expression(op, decls, p, e, None, Form::Explicit)
            }
        };
        if !e.ty().is_some_and(|t| type_length(t) <= TYPE_LIMIT) {
            return Err(10);
        }
        self.places[place].end = self.at;
        Ok(e)
    }

    fn pred(&mut self) -> Result<Predicate, u8> {
        let (place, tag) = self.begin();
        let p = match tag {
            101..=112 => {
                let (l, r) = (self.expr()?, self.expr()?);
                self.ff.relational_predicate(find(&RelationalOp::ALL, RelationalOp::tag, tag), l, r, None)
            }
            251 | 252 => {
                let (l, r) = (self.pred()?, self.pred()?);
                self.ff.binary_predicate(find(&BinaryPredOp::ALL, BinaryPredOp::tag, tag), l, r, None)
            }
            351 | 352 => {
                let kids = self.preds()?;
                self.ff.associative_predicate(find(&AssocPredOp::ALL, AssocPredOp::tag, tag), kids, None)
            }
            610 | 611 => self.ff.literal_predicate(find(&LiteralPredOp::ALL, LiteralPredOp::tag, tag), None),
            620 => {
                let e = self.expr()?;
                self.ff.simple_predicate(e, None)
            }
            701 => {
                let p = self.pred()?;
                self.ff.not_predicate(p, None)
            }
            901 => {
                let parts = self.exprs()?;
                self.ff.multiple_predicate(parts, None)
            }
            _ => {
                let around = self.binders.len();
                let decls = self.decls();
                let p = self.pred()?;
                self.binders.truncate(around);
                self.ff.quantified_predicate(find(&QuantPredOp::ALL, QuantPredOp::tag, tag), decls, p, None)
            }
        };
        if !p.is_type_checked() {
            return Err(10);
        }
        self.places[place].end = self.at;
        self.places[place].pred = Some(p.clone());
        Ok(p)
    }
}

/// The places of a frame in prefix order, or its number in docs/FRAMES.md.
pub fn read(bytes: &[u8]) -> Result<Vec<Place>, u8> {
    if bytes.is_empty() || bytes.len() > FRAME_LIMIT {
        return Err(2);
    }
    scan(bytes)?;
    let ff = FormulaFactory::default_factory();
    let mut b = Builder { bytes, at: 0, ff, binders: Vec::new(), places: Vec::new() };
    b.pred()?;
    Ok(b.places)
}
