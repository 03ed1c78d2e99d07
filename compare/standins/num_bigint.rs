//! Stand-in for the package num-bigint: the literals of docs/FRAMES.md are signed 64-bit numbers, and no taken function counts with them.
pub type BigInt = i64;
