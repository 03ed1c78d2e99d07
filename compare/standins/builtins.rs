//! Stand-in: asked only when an extension is registered, and none is.
pub fn is_reserved_name(_name: &str) -> bool {
    false
}
