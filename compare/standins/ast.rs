//! Stand-in: the span type. Frames have no spans.
pub type Span = ();
