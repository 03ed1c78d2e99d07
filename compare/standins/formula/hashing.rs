//! Stand-in: what the source's `kind_hash` and `decl_hash` ask for. The source's file is missing, so the functions are ours: a name
//! or a number goes through the standard library's hasher, with its fixed keys; combining two hashes costs a product. Trees with
//! the same hash may differ, in types above all, which `kind_hash` leaves out: they are compared in full, so no answer rests on it.
use std::hash::{DefaultHasher, Hash, Hasher};

pub fn hash_one<T: Hash + ?Sized>(value: &T) -> u64 {
    let mut hasher = DefaultHasher::new();
    value.hash(&mut hasher);
    hasher.finish()
}

/// The product comes last: else what stands in both parts, as in P ⇒ ¬P, might cancel out.
pub fn combine(a: u64, b: u64) -> u64 {
    (a.rotate_left(26) ^ b).wrapping_mul(0x9E37_79B9_7F4A_7C15)
}

pub fn fold(parts: impl Iterator<Item = u64>) -> u64 {
    parts.fold(0, combine)
}
