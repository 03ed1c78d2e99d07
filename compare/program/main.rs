//! reference step | rule | run: answers lines `NUMBER LENT FRAME` of standard input (the number is the step's place or the run's
//! budget) as the Rattle program `replay` does; `rule` tells the place of docs/RULES.md in front of a step's answer.
//! reference bench (built with --cfg bench): the port and the source timed on the same frames.
//! reference gen SEED COUNT: so many lines for `step` at random. reference sample SEED: the steps of crates/replay/stdin.
extern crate self as rossi;

mod ast;
#[cfg(bench)]
mod bench;
mod builtins;
mod bytes;
mod formula;
mod frame;
mod generate;
mod left_sides;
mod lines;
mod reasoners;
mod rules;
mod sample;
mod step;
mod text;

use std::io::{BufRead, Write};

/// The largest output that a line may lend.
const LENT_LIMIT: u64 = 8192;

fn number(word: &[u8]) -> Option<u64> {
    let digits = !word.is_empty() && word.iter().all(u8::is_ascii_digit);
    std::str::from_utf8(word).ok().filter(|_| digits)?.parse().ok()
}

struct Line {
    number: u64,
    lent: u64,
    frame: Vec<u8>,
}

fn parse(line: &[u8]) -> Result<Line, u8> {
    let mut words = line.splitn(3, |c| *c == b' ');
    let mut next = || words.next().ok_or(1);
    let (first, lent, hex) = (next()?, next()?, next()?);
    let lent = number(lent).filter(|n| *n <= LENT_LIMIT).ok_or(1)?;
    Ok(Line { number: number(first).ok_or(1)?, lent, frame: text::from_hex(hex)? })
}

fn step_answer(line: &[u8], with_rule: bool) -> Result<String, u8> {
    let l = parse(line)?;
    Ok(match step::step(&l.frame, l.number, l.lent)? {
        Some((rule, new)) if with_rule => format!("{rule} CHANGED {}", text::to_hex(&new)),
        Some((_, new)) => format!("CHANGED {}", text::to_hex(&new)),
        None => "UNCHANGED".into(),
    })
}

fn run_answer(line: &[u8]) -> Result<String, u8> {
    let l = parse(line)?;
    let budget = u32::try_from(l.number).map_err(|_| 1)?;
    let (word, count, last) = step::run(&l.frame, budget.into(), l.lent)?;
    Ok(format!("{word} {count} {}", text::to_hex(&last)))
}

fn answer_lines(answer: impl Fn(&[u8]) -> Result<String, u8>, out: &mut impl Write) -> std::io::Result<()> {
    for line in std::io::stdin().lock().split(b'\n') {
        writeln!(out, "{}", answer(&line?).unwrap_or_else(|n| format!("REFUSED {n}")))?;
    }
    Ok(())
}

fn work() -> std::io::Result<()> {
    let args: Vec<String> = std::env::args().skip(1).collect();
    let words: Vec<&str> = args.iter().map(String::as_str).collect();
    let number = |word: &str| word.parse().expect("a number");
    let mut out = std::io::BufWriter::new(std::io::stdout().lock());
    match words[..] {
        ["step"] => answer_lines(|l| step_answer(l, false), &mut out)?,
        ["rule"] => answer_lines(|l| step_answer(l, true), &mut out)?,
        ["run"] => answer_lines(run_answer, &mut out)?,
        ["gen", seed, count] => {
            let mut lines = lines::Lines::new(number(seed));
            for _ in 0..number(count) {
                writeln!(out, "{}", lines.next())?;
            }
        }
        #[cfg(bench)]
        ["bench"] => bench::table(),
        ["sample", seed] => {
            for line in sample::lines(number(seed)) {
                writeln!(out, "{line}")?;
            }
        }
        _ => panic!("reference step | rule | run | gen SEED COUNT | sample SEED"),
    }
    out.flush()
}

/// Trees of 2,048 nodes in a row want a large stack.
fn main() {
    let thread = std::thread::Builder::new().stack_size(256 << 20).spawn(work);
    thread.expect("a thread").join().expect("no panic").expect("output");
}
