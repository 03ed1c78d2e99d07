//! Accepted predicates at random, as bytes, with every operator; the rules' left sides are made in left_sides.rs.
use rossi::formula::Type;

use crate::bytes::{Bytes, FALSE, Random, TRUE, bound, many, named, node, quantified, type_expression, typed};

const GIVEN_SETS: [u16; 3] = [9, 500, 65535];

pub struct Generator {
    pub random: Random,
    /// the types of the binders around, the last of the nearest list last
    pub binders: Vec<Type>,
    names: Vec<(u16, Type)>,
    /// what was made before, with its binders; the type tells expressions from predicates
    made: Vec<(Vec<Type>, Option<Type>, Bytes)>,
    /// how many nodes more may be made that aren't leaves
    pub room: i32,
    /// whether counts and types may be large
    pub wide: bool,
    /// whether they are very large
    pub huge: bool,
}

impl Generator {
    pub fn new(seed: u64) -> Generator {
        let random = Random::new(seed);
        Generator { random, binders: Vec::new(), names: Vec::new(), made: Vec::new(), room: 0, wide: false, huge: false }
    }

    /// For a new frame, which shares no names with those before.
    pub fn restart(&mut self, room: i32) {
        self.binders.clear();
        self.names.clear();
        self.made.clear();
        self.room = room;
    }

    pub fn ty(&mut self) -> Type {
        let deep = if self.wide { 8 } else { 16 };
        match self.random.below(deep) {
            0 | 1 => Type::pow(self.ty()),
            2 | 3 => {
                let s = self.ty();
                Type::prod(s, self.ty())
            }
            4 => Type::Int,
            5 | 6 => Type::Given(format!("i{}", self.random.of(&GIVEN_SETS))),
            _ => Type::Bool,
        }
    }

    pub fn set(&mut self) -> Type {
        Type::pow(self.ty())
    }

    fn relation(&mut self) -> Type {
        let s = self.ty();
        Type::relation(s, self.ty())
    }

    /// Some type of the expressions that the tag can be the head of.
    pub fn type_for(&mut self, tag: u16) -> Type {
        let (a, b) = (self.ty(), self.ty());
        match tag {
            202..=212 => Type::pow(Type::relation(a, b)),
            214 | 217..=220 | 303..=305 | 763 => Type::relation(a, b),
            215 => Type::relation(a, Type::prod(b, self.ty())),
            216 => Type::relation(Type::prod(a, b), Type::prod(self.ty(), self.ty())),
            221 | 401..=403 => Type::pow(Type::Int),
            404 => Type::pow(Type::Bool),
            410 => Type::relation(Type::prod(a.clone(), b), a),
            411 => Type::relation(Type::prod(a, b.clone()), b),
            412 => Type::relation(a.clone(), a),
            752 | 753 => Type::pow(Type::pow(a)),
            _ => Type::pow(a),
        }
    }

    /// The heads that an expression of this type can have, but for identifiers.
    fn heads(ty: &Type) -> Vec<u16> {
        let mut tags = vec![226];
        match ty {
            Type::Bool => tags.extend([405, 406, 601]),
            Type::Int => tags.extend([4, 4, 222, 223, 224, 225, 306, 307, 751, 761, 762, 764]),
            Type::Given(_) => {}
            Type::Prod(..) => tags.extend([201, 201, 201]),
            Type::Pow(base) => {
                tags.extend([5, 5, 213, 227, 301, 302, 407, 754, 755, 756, 757, 801, 802, 803]);
                match &**base {
                    Type::Bool => tags.push(404),
                    Type::Int => tags.extend([221, 401, 402, 403]),
                    Type::Given(_) => {}
                    Type::Pow(t) => {
                        tags.extend([752, 753]);
                        if let Type::Prod(..) = **t {
                            tags.extend(202..=212);
                        }
                    }
                    Type::Prod(s, t) => Self::relation_heads(s, t, &mut tags),
                }
            }
        }
        tags
    }

    fn relation_heads(source: &Type, target: &Type, tags: &mut Vec<u16>) {
        tags.extend([214, 217, 218, 219, 220, 303, 304, 305, 763]);
        if source == target {
            tags.push(412);
            if *source == Type::Int {
                tags.extend([408, 409]);
            }
        }
        if let Type::Prod(s, t) = source {
            tags.extend((**s == *target).then_some(410));
            tags.extend((**t == *target).then_some(411));
            tags.extend(matches!(target, Type::Prod(..)).then_some(216));
        }
        tags.extend(matches!(target, Type::Prod(..)).then_some(215));
    }

    /// The operands' types, where the tag is the head of an expression of type `ty` and there are n of them if it has a count.
    fn operands(&mut self, tag: u16, ty: &Type, n: usize) -> Vec<Type> {
        let part = self.ty();
        let elements = ty.base_type().cloned().unwrap_or(Type::Bool);
        let source = ty.source().cloned().unwrap_or(Type::Bool);
        let target = ty.target().cloned().unwrap_or(Type::Bool);
        let pow = |t: &Type| Type::pow(t.clone());
        let halves = |t: &Type| match t {
            Type::Prod(a, b) => ((**a).clone(), (**b).clone()),
            _ => (Type::Bool, Type::Bool),
        };
        match tag {
            5 => vec![elements; n],
            201 => {
                let (a, b) = halves(ty);
                vec![a, b]
            }
            202..=212 => {
                let (a, b) = halves(elements.base_type().expect("relations"));
                vec![Type::pow(a), Type::pow(b)]
            }
            213 => vec![ty.clone(), ty.clone()],
            214 => vec![pow(&source), pow(&target)],
            215 => {
                let (a, b) = halves(&target);
                vec![Type::relation(source.clone(), a), Type::relation(source, b)]
            }
            216 => {
                let ((a, b), (c, d)) = (halves(&source), halves(&target));
                vec![Type::relation(a, c), Type::relation(b, d)]
            }
            217 | 218 => vec![pow(&source), ty.clone()],
            219 | 220 => vec![ty.clone(), pow(&target)],
            221..=225 => vec![Type::Int, Type::Int],
            226 => vec![Type::relation(part.clone(), ty.clone()), part],
            227 => vec![Type::relation(part.clone(), elements), Type::pow(part)],
            303 | 304 => self.chain(tag == 303, source, target, n),
            301 | 302 | 305..=307 => vec![ty.clone(); n],
            751 => vec![Type::pow(part)],
            752 | 753 => vec![elements],
            754 | 755 => vec![pow(ty)],
            756 => vec![Type::relation(elements, part)],
            757 => vec![Type::relation(part, elements)],
            761 | 762 => vec![Type::pow(Type::Int)],
            763 => vec![Type::relation(target, source)],
            764 => vec![Type::Int],
            _ => vec![],
        }
    }

    /// The types of n relations in a row; the last comes first if `backward`.
    fn chain(&mut self, backward: bool, source: Type, target: Type, n: usize) -> Vec<Type> {
        let mut stops = vec![source];
        stops.extend((1..n).map(|_| self.ty()));
        stops.push(target);
        let mut types: Vec<Type> = stops.windows(2).map(|w| Type::relation(w[0].clone(), w[1].clone())).collect();
        if backward {
            types.reverse();
        }
        types
    }

    pub fn count(&mut self, least: usize) -> usize {
        if self.huge {
            return least + self.random.below(254);
        }
        if self.wide && self.random.one_in(4) {
            return least + self.random.below(40);
        }
        least + self.random.of(&[0, 0, 0, 1, 1, 2, 4])
    }

    fn name(&mut self, ty: &Type) -> Bytes {
        let of_type: Vec<u16> = self.names.iter().filter(|n| n.1 == *ty).map(|n| n.0).collect();
        if !of_type.is_empty() && !self.random.one_in(1 + of_type.len()) {
            return named(self.random.of(&of_type), ty);
        }
        loop {
            let number = self.random.number() as u16 >> self.random.of(&[0, 8, 12]);
            if !GIVEN_SETS.contains(&number) && self.names.iter().all(|n| n.0 != number) {
                self.names.push((number, ty.clone()));
                return named(number, ty);
            }
        }
    }

    fn leaf(&mut self, ty: &Type) -> Bytes {
        let n = self.binders.len();
        let fitting: Vec<usize> = (0..n.min(256)).filter(|i| self.binders[n - 1 - i] == *ty).collect();
        if !fitting.is_empty() && !self.random.one_in(4) {
            return bound(self.random.of(&fitting));
        }
        match ty {
            Type::Bool if self.random.one_in(2) => node(self.random.of(&[405, 406]), &[]),
            Type::Int if self.random.one_in(2) => self.literal(),
            Type::Pow(_) if self.random.one_in(6) => typed(407, ty),
            Type::Pow(base) if self.random.one_in(5) => type_expression(base),
            _ => self.name(ty),
        }
    }

    fn literal(&mut self) -> Bytes {
        let any = self.random.number() as i64;
        let value = self.random.of(&[0, 1, -1, 2, i64::MIN, i64::MAX, any]);
        node(4, &[value.to_be_bytes().to_vec()])
    }

    /// Something made before in the same place of binders, now and then.
    fn again(&mut self, ty: Option<&Type>) -> Option<Bytes> {
        if !self.random.one_in(6) {
            return None;
        }
        let same = self.made.iter().filter(|m| m.0 == self.binders && m.1.as_ref() == ty);
        let fitting: Vec<Bytes> = same.map(|m| m.2.clone()).collect();
        (!fitting.is_empty()).then(|| self.random.of(&fitting))
    }

    fn keep(&mut self, ty: Option<&Type>, bytes: &Bytes) {
        if self.made.len() < 40 && bytes.len() < 60 {
            self.made.push((self.binders.clone(), ty.cloned(), bytes.clone()));
        }
    }

    pub fn expr(&mut self, ty: &Type) -> Bytes {
        if let Some(e) = self.again(Some(ty)) {
            return e;
        }
        self.room -= 1;
        if self.room < 0 || self.random.one_in(3) {
            return self.leaf(ty);
        }
        let tag = self.random.of(&Self::heads(ty));
        let e = self.expr_of(tag, ty);
        self.keep(Some(ty), &e);
        e
    }

    pub fn exprs(&mut self, types: &[Type]) -> Vec<Bytes> {
        types.iter().map(|t| self.expr(t)).collect()
    }

    /// An expression of this type with this head.
    pub fn expr_of(&mut self, tag: u16, ty: &Type) -> Bytes {
        match tag {
            4 => self.literal(),
            401..=406 | 408 | 409 => node(tag, &[]),
            407 | 410..=412 => typed(tag, ty),
            601 => node(601, &[self.pred()]),
            801 | 802 => self.comprehension(tag, ty),
            803 => self.comprehension(tag, ty.base_type().expect("a set")),
            5 | 301..=307 => {
                let n = self.count(if tag == 5 { 1 } else { 2 });
                let types = self.operands(tag, ty, n);
                many(tag, &self.exprs(&types))
            }
            _ => {
                let types = self.operands(tag, ty, 0);
                node(tag, &self.exprs(&types))
            }
        }
    }

    pub fn new_binders(&mut self) -> Vec<Type> {
        let large = self.huge || self.wide && self.random.one_in(4);
        let n = if large { 1 + self.random.below(32) } else { self.random.of(&[1, 1, 1, 2, 2, 3]) };
        (0..n).map(|_| self.ty()).collect()
    }

    /// What is made under these binders.
    pub fn under<T>(&mut self, binders: &[Type], make: impl FnOnce(&mut Self) -> T) -> T {
        let around = self.binders.len();
        self.binders.extend_from_slice(binders);
        let made = make(self);
        self.binders.truncate(around);
        made
    }

    fn comprehension(&mut self, tag: u16, value: &Type) -> Bytes {
        let binders = self.new_binders();
        let kids = self.under(&binders, |g| [g.pred(), g.expr(value)]);
        quantified(tag, &binders, &kids)
    }

    pub fn pred(&mut self) -> Bytes {
        if let Some(p) = self.again(None) {
            return p;
        }
        self.room -= 1;
        let p = if self.room < 0 {
            self.small()
        } else if self.random.one_in(2) {
            let rule = 1 + self.random.below(87) as u8;
            self.left_side(rule)
        } else {
            self.any_pred()
        };
        self.keep(None, &p);
        p
    }

    fn small(&mut self) -> Bytes {
        if self.random.one_in(4) {
            return node(self.random.of(&[TRUE, FALSE]), &[]);
        }
        node(101, &[self.leaf(&Type::Bool), self.leaf(&Type::Bool)])
    }

    fn preds(&mut self, n: usize) -> Vec<Bytes> {
        (0..n).map(|_| self.pred()).collect()
    }

    fn any_pred(&mut self) -> Bytes {
        let set = self.set();
        match self.random.below(20) {
            0 => self.small(),
            1..=4 => {
                let n = self.count(2);
                many(self.random.of(&[351, 352]), &self.preds(n))
            }
            5 | 6 => node(self.random.of(&[251, 252]), &self.preds(2)),
            7 | 8 => node(701, &self.preds(1)),
            9 | 10 => {
                let binders = self.new_binders();
                let kids = self.under(&binders, |g| g.preds(1));
                quantified(self.random.of(&[851, 852]), &binders, &kids)
            }
            11 => node(620, &[self.expr(&set)]),
            12 => {
                let n = self.count(1);
                many(901, &self.exprs(&vec![set; n]))
            }
            13 => {
                let tag = self.random.of(&[103, 104, 105, 106]);
                node(tag, &self.exprs(&[Type::Int, Type::Int]))
            }
            14 | 15 => {
                let element = set.base_type().expect("a set").clone();
                node(self.random.of(&[107, 108]), &self.exprs(&[element, set]))
            }
            16 | 17 => node(self.random.of(&[109, 110, 111, 112]), &self.exprs(&[set.clone(), set])),
            _ => {
                let ty = self.ty();
                node(self.random.of(&[101, 102]), &self.exprs(&[ty.clone(), ty]))
            }
        }
    }
}
