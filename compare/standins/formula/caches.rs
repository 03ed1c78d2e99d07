//! Stand-in: the bound indices that escape a node, ascending. Names of free identifiers, which no taken function asks for, are
//! not kept.
use std::collections::BTreeSet;

use super::decl::BoundIdentDecl;
use super::expression::Expression;
use super::predicate::Predicate;

#[derive(Default)]
pub struct CacheBuilder(BTreeSet<u32>);

impl CacheBuilder {
    pub fn new() -> Self {
        Self::default()
    }

    /// What escapes a part that stands under `n` binders of this node.
    fn add(&mut self, escaping: &[u32], n: usize) {
        self.0.extend(escaping.iter().filter_map(|i| i.checked_sub(n as u32)));
    }

    pub fn add_expr(&mut self, e: &Expression) {
        self.add(e.dangling_bound_indices(), 0);
    }

    pub fn add_pred(&mut self, p: &Predicate) {
        self.add(p.dangling_bound_indices(), 0);
    }

    pub fn add_decl(&mut self, d: &BoundIdentDecl) {
        self.add(d.dangling_bound_indices(), 0);
    }

    pub fn add_scoped_expr(&mut self, e: &Expression, n: usize) {
        self.add(e.dangling_bound_indices(), n);
    }

    pub fn add_scoped_pred(&mut self, p: &Predicate, n: usize) {
        self.add(p.dangling_bound_indices(), n);
    }

    pub fn add_free_name(&mut self, _name: String) {}

    pub fn add_dangling_index(&mut self, index: u32) {
        self.0.insert(index);
    }

    pub fn finish(self) -> (Box<[String]>, Box<[u32]>) {
        (Box::default(), self.0.into_iter().collect())
    }
}
