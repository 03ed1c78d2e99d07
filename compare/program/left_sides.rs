//! Left sides of the rules of docs/RULES.md at random. An earlier rule may come first by chance.
use rossi::formula::Type;

use crate::bytes::{Bytes, FALSE, TRUE, bound, many, node, quantified, type_expression, typed};
use crate::generate::Generator;
use crate::rules::{EQUALS_EMPTY_SET, EQUALS_TYPE, FINITE, NOT, Table};

fn not(p: Bytes) -> Bytes {
    node(701, &[p])
}

fn atom(tag: u16) -> Bytes {
    node(tag, &[])
}

impl Generator {
    pub fn left_side(&mut self, rule: u8) -> Bytes {
        match rule {
            11 => self.finite_lambda(),
            1..=13 => {
                let (e, _) = self.headed(FINITE, rule);
                node(620, &[e])
            }
            14 | 15 => {
                let set = self.set();
                many(901, &self.exprs(&vec![set; rule as usize - 13]))
            }
            16..=19 => {
                let tag = self.tag_of(NOT, rule);
                not(node(tag, &self.exprs(&[Type::Int, Type::Int])))
            }
            20..=23 => {
                let (e, truth) = (self.expr(&Type::Bool), atom(if rule % 2 == 0 { 406 } else { 405 }));
                not(node(101, &if rule < 22 { [e, truth] } else { [truth, e] }))
            }
            24..=35 => {
                let (e, ty) = self.headed(EQUALS_TYPE, rule);
                self.equal(e, type_expression(ty.base_type().expect("a set")))
            }
            36..=61 => {
                let (e, ty) = if rule == 37 || rule == 38 { self.intersection(rule) } else { self.headed(EQUALS_EMPTY_SET, rule) };
                let tag = self.random.of(&[101, 111]);
                let empty = typed(407, &ty);
                if tag == 101 { self.equal(e, empty) } else { node(111, &[e, empty]) }
            }
            62..=65 => self.junction(rule),
            66..=74 => self.implication(rule),
            75..=81 => self.equivalence(rule),
            82 => not(atom(TRUE)),
            83 => not(atom(FALSE)),
            84 => not(not(self.pred())),
            _ => self.quantifier(rule),
        }
    }

    fn equal(&mut self, left: Bytes, right: Bytes) -> Bytes {
        node(101, &if self.random.one_in(3) { [right, left] } else { [left, right] })
    }

    fn tag_of(&mut self, table: Table, rule: u8) -> u16 {
        let (_, tags) = table.iter().find(|row| row.0 == rule).expect("a row");
        self.random.of(tags)
    }

    /// An expression whose head has this rule's row in the table, and its type.
    fn headed(&mut self, table: Table, rule: u8) -> (Bytes, Type) {
        let tag = self.tag_of(table, rule);
        let ty = self.type_for(tag);
        if rule == 12 {
            let restricted = self.random.of(&[410, 411, 412]);
            let ty = self.type_for(restricted);
            let source = Type::pow(ty.source().expect("a relation").clone());
            return (node(217, &[self.expr(&source), typed(restricted, &ty)]), ty);
        }
        (self.expr_of(tag, &ty), ty)
    }

    /// finite({x·P ∣ E ↦ F}) with maplets of some binders for E.
    fn finite_lambda(&mut self) -> Bytes {
        let binders = self.new_binders();
        let set = self.under(&binders, |g| {
            let mut pattern = bound(g.random.below(binders.len()));
            for _ in 0..g.random.below(2 * binders.len()) {
                let leaf = if g.random.one_in(5) { g.expr(&Type::Bool) } else { bound(g.random.below(binders.len())) };
                pattern = node(201, &if g.random.one_in(2) { [pattern, leaf] } else { [leaf, pattern] });
            }
            let value = g.random.of(&binders);
            [g.pred(), node(201, &[pattern, g.expr(&value)])]
        });
        node(620, &[quantified(803, &binders, &set)])
    }

    /// ∩ with a set of one member, or with differences.
    fn intersection(&mut self, rule: u8) -> (Bytes, Type) {
        let ty = self.set();
        let n = 2 + self.random.below(3);
        let mut parts = self.exprs(&vec![ty.clone(); n]);
        let at = self.random.below(n);
        for k in 0..n {
            if k == at || self.random.one_in(4) {
                parts[k] = if rule == 37 {
                    many(5, &[self.expr(ty.base_type().expect("a set"))])
                } else {
                    node(213, &self.exprs(&[ty.clone(), ty.clone()]))
                };
            }
        }
        (many(302, &parts), ty)
    }

    fn shuffled(&mut self, mut list: Vec<Bytes>) -> Vec<Bytes> {
        for k in (1..list.len()).rev() {
            list.swap(k, self.random.below(k + 1));
        }
        list
    }

    fn junction(&mut self, rule: u8) -> Bytes {
        let (tag, neutral, determinant) = self.random.of(&[(351, TRUE, FALSE), (352, FALSE, TRUE)]);
        let n = 2 + self.random.below(3);
        let p = self.pred();
        let parts = match rule {
            62 => {
                let decides = if self.random.one_in(2) { vec![atom(determinant)] } else { vec![p.clone(), not(p)] };
                (0..n).map(|_| self.pred()).chain(decides).collect()
            }
            63 => vec![atom(neutral); n],
            64 => (1..n).map(|_| if self.random.one_in(2) { atom(neutral) } else { p.clone() }).chain([p.clone()]).collect(),
            _ => {
                let extra = if self.random.one_in(2) { atom(neutral) } else { p.clone() };
                (1..n).map(|_| self.pred()).chain([p, extra]).collect()
            }
        };
        many(tag, &self.shuffled(parts))
    }

    fn implication(&mut self, rule: u8) -> Bytes {
        let (p, q) = (self.pred(), self.pred());
        let conjunction = |g: &mut Self, one: Bytes| {
            let others = (0..1 + g.random.below(3)).map(|_| g.pred()).chain([one]).collect();
            many(351, &g.shuffled(others))
        };
        let sides = match rule {
            66 => [atom(TRUE), p],
            67 => [atom(FALSE), p],
            68 => [p, atom(TRUE)],
            69 => [p, atom(FALSE)],
            70 => [p.clone(), p],
            71 => [conjunction(self, q.clone()), q],
            72 if self.random.one_in(2) => [conjunction(self, q.clone()), not(q)],
            72 => [conjunction(self, not(q.clone())), q],
            73 => [not(p.clone()), p],
            _ => [p.clone(), not(p)],
        };
        node(251, &sides)
    }

    fn equivalence(&mut self, rule: u8) -> Bytes {
        let p = self.pred();
        let sides = match rule {
            75 => [p, atom(TRUE)],
            76 => [atom(TRUE), p],
            77 => [p.clone(), p],
            78 => [p, atom(FALSE)],
            79 => [atom(FALSE), p],
            80 => [p.clone(), not(p)],
            _ => [not(p.clone()), p],
        };
        node(252, &sides)
    }

    fn quantifier(&mut self, rule: u8) -> Bytes {
        let binders = self.new_binders();
        let n = self.count(2);
        let body = self.under(&binders, |g| {
            let mut parts = |n: usize| -> Vec<Bytes> { (0..n).map(|_| g.pred()).collect() };
            match rule {
                85 => many(351, &parts(n)),
                86 => many(352, &parts(n)),
                _ => node(251, &parts(2)),
            }
        });
        quantified(if rule == 85 { 851 } else { 852 }, &binders, &[body])
    }
}
