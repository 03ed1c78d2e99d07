//! Numbers at random, and nodes as bytes.
use rossi::formula::Type;

use crate::text::put_type;

pub type Bytes = Vec<u8>;

pub const TRUE: u16 = 610;
pub const FALSE: u16 = 611;

/// Pseudorandom numbers: a counter that goes up by an odd constant, its bits mixed.
pub struct Random(u64);

impl Random {
    pub fn new(seed: u64) -> Random {
        Random(seed.wrapping_mul(0x9E37_79B9_7F4A_7C15) ^ 0x5851_F42D_4C95_7F2D)
    }

    pub fn number(&mut self) -> u64 {
        self.0 = self.0.wrapping_add(0xD134_2543_DE82_EF95);
        let mut x = self.0;
        x = (x ^ x >> 29).wrapping_mul(0xFF51_AFD7_ED55_8CCD);
        x = (x ^ x >> 32).wrapping_mul(0xC4CE_B9FE_1A85_EC53);
        x ^ x >> 31
    }

    pub fn below(&mut self, n: usize) -> usize {
        (self.number() % n as u64) as usize
    }

    pub fn one_in(&mut self, n: usize) -> bool {
        self.below(n) == 0
    }

    pub fn of<T: Clone>(&mut self, list: &[T]) -> T {
        list[self.below(list.len())].clone()
    }
}

// ---- nodes

pub fn node(tag: u16, kids: &[Bytes]) -> Bytes {
    let mut out = tag.to_be_bytes().to_vec();
    kids.iter().for_each(|k| out.extend(k));
    out
}

pub fn many(tag: u16, kids: &[Bytes]) -> Bytes {
    let mut out = tag.to_be_bytes().to_vec();
    out.push(kids.len() as u8);
    kids.iter().for_each(|k| out.extend(k));
    out
}

pub fn typed(tag: u16, ty: &Type) -> Bytes {
    let mut out = tag.to_be_bytes().to_vec();
    put_type(ty, &mut out);
    out
}

pub fn named(number: u16, ty: &Type) -> Bytes {
    let mut out = node(1, &[number.to_be_bytes().to_vec()]);
    put_type(ty, &mut out);
    out
}

pub fn quantified(tag: u16, binders: &[Type], kids: &[Bytes]) -> Bytes {
    let mut out = many(tag, &[]);
    out[2] = binders.len() as u8;
    binders.iter().for_each(|t| put_type(t, &mut out));
    kids.iter().for_each(|k| out.extend(k));
    out
}

pub fn bound(index: usize) -> Bytes {
    vec![0, 3, index as u8]
}

pub fn type_expression(ty: &Type) -> Bytes {
    match ty {
        Type::Bool => node(404, &[]),
        Type::Int => node(401, &[]),
        Type::Given(name) => named(name[1..].parse().expect("a number"), &Type::pow(ty.clone())),
        Type::Pow(t) => node(752, &[type_expression(t)]),
        Type::Prod(s, t) => node(214, &[type_expression(s), type_expression(t)]),
    }
}
