//! reference bench: the port's `step` and `run` (through the library for C) and the source's functions on the same frames, in one
//! run. The whole call reads the frame, checks it, steps and writes; `rule` is the source's rule alone, on a tree that was read.
//! Each figure is the least of some rounds, in nanoseconds a call.
use std::hint::black_box;
use std::time::Instant;

use crate::bytes::{Bytes, FALSE, TRUE, many, named, node, typed};
use crate::{frame, step};
use rossi::formula::Type;

#[link(name = "lustrejasper", kind = "static")]
unsafe extern "C" {
    fn lustrejasper_step(frame: *const u8, frame_len: usize, place: u64, out: *mut u8, out_len: usize) -> u64;
    fn lustrejasper_run(frame: *const u8, frame_len: usize, budget: u32, out: *mut u8, out_len: usize) -> u64;
}

const OUT: usize = 4096;
const ROUNDS: usize = 7;

fn port_step(frame: &[u8], out: &mut [u8]) -> u64 {
    unsafe { lustrejasper_step(frame.as_ptr(), frame.len(), 0, out.as_mut_ptr(), out.len()) }
}

fn port_run(frame: &[u8], out: &mut [u8]) -> u64 {
    unsafe { lustrejasper_run(frame.as_ptr(), frame.len(), 65_535, out.as_mut_ptr(), out.len()) }
}

/// The least time of a call, over rounds of about 20 milliseconds each.
fn least(mut call: impl FnMut()) -> f64 {
    let begun = Instant::now();
    call();
    let calls = (20_000_000 / begun.elapsed().as_nanos().max(1)).clamp(1, 20_000) as usize;
    let round = |call: &mut dyn FnMut()| {
        let begun = Instant::now();
        (0..calls).for_each(|_| call());
        begun.elapsed().as_nanos() as f64 / calls as f64
    };
    (0..ROUNDS).map(|_| round(&mut call)).fold(f64::MAX, f64::min)
}

/// i = TRUE, of the identifier with this number
fn truth(i: u16) -> Bytes {
    node(101, &[named(i, &Type::Bool), node(405, &[])])
}

fn negations(depth: usize) -> Bytes {
    (0..depth).fold(node(TRUE, &[]), |p, _| node(701, &[p]))
}

/// A conjunction of n different equations, in which ⊤ goes.
fn wide(n: u16) -> Bytes {
    let kids: Vec<Bytes> = (1..n).map(truth).chain([node(TRUE, &[])]).collect();
    many(351, &kids)
}

/// A conjunction of conjunctions ⇒ ⊥, of about so many bytes: the step is at the root, the rest is read and checked.
fn mixed(bytes: usize) -> Bytes {
    let part = |i: u16| many(351, &[truth(2 * i + 1), truth(2 * i + 2)]);
    let parts = ((bytes / part(0).len()) as u16).clamp(1, 170);
    let body: Vec<Bytes> = (0..parts).map(part).collect();
    node(251, &[if body.len() > 1 { many(351, &body) } else { body[0].clone() }, node(FALSE, &[])])
}

/// S × T = ∅ with S and T unions of n sets each: operands with types.
fn products(n: u16) -> Bytes {
    let set = Type::pow(Type::Bool);
    let union = |from: u16| many(301, &(from..from + n).map(|i| named(i, &set)).collect::<Vec<_>>());
    node(101, &[node(214, &[union(1), union(1000)]), typed(407, &Type::pow(Type::prod(Type::Bool, Type::Bool)))])
}

fn row(name: &str, bytes: &[u8]) {
    let mut out = vec![0u8; OUT];
    let places = frame::read(bytes).expect("an accepted frame");
    let pred = places[0].pred.clone().expect("a predicate");
    let (_, new) = step::step(bytes, 0, OUT as u64).expect("a step").expect("a change");
    assert_eq!(port_step(bytes, &mut out), 65_536 + new.len() as u64);
    assert!(out.starts_with(&new));
    let port = least(|| _ = black_box(port_step(black_box(bytes), &mut out)));
    let whole = least(|| drop(black_box(step::step(black_box(bytes), 0, OUT as u64))));
    let rule = least(|| drop(black_box(step::rewritten(black_box(&pred)))));
    let run = least(|| _ = black_box(port_run(black_box(bytes), &mut out)));
    let source_run = least(|| drop(black_box(step::run(black_box(bytes), 65_535, OUT as u64))));
    let (_, count, _) = step::run(bytes, 65_535, OUT as u64).expect("a run");
    println!(
        "| {name} | {} | {} | {port:.0} | {whole:.0} | {:.2} | {rule:.0} | {count} | {run:.0} | {source_run:.0} | {:.2} |",
        bytes.len(), places.len(), whole / port, source_run / run
    );
}

pub fn table() {
    println!("| frame | bytes | nodes | port step | source step | ratio | source rule | steps | port run | source run | ratio |");
    println!("|---|---|---|---|---|---|---|---|---|---|---|");
    for n in [100, 1000, 4000] {
        row(&format!("mixed, about {n} bytes"), &mixed(n));
    }
    for n in [2, 16, 64, 255] {
        row(&format!("conjunction of {n}"), &wide(n));
    }
    for n in [10, 100, 1000, 2000] {
        row(&format!("{n} negations"), &negations(n));
    }
    for n in [2, 30, 120] {
        row(&format!("product of unions of {n}"), &products(n));
    }
}
