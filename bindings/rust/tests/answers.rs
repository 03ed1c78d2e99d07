//! The library's answers held to those that the programs of the repository must print.

use lustrejasper::{check, run, step, Refused, Run, Step, Word, FRAME_LIMIT};
use std::fs;
use std::path::{Path, PathBuf};

/// A file of a program's crate. Bytes that are no text stand for themselves, as one character each.
fn file(krate: &str, name: &str) -> String {
    let path: PathBuf = Path::new(env!("CARGO_MANIFEST_DIR")).join("../../crates").join(krate).join(name);
    let read = fs::read(&path).unwrap_or_else(|e| panic!("{}: {e}", path.display()));
    read.into_iter().map(char::from).collect()
}

/// The bytes of a line in capital hexadecimal, if it is one.
fn bytes(line: &str) -> Option<Vec<u8>> {
    let digits: Vec<u8> = line.chars().map(|c| "0123456789ABCDEF".find(c).map(|v| v as u8)).collect::<Option<_>>()?;
    (digits.len() % 2 == 0).then(|| digits.chunks(2).map(|p| p[0] * 16 + p[1]).collect())
}

fn hex(frame: &[u8]) -> String {
    frame.iter().map(|b| format!("{b:02X}")).collect()
}

/// An output whose bytes go by their place, so that one that was written or moved is seen.
fn lent(n: usize) -> Vec<u8> {
    (0..n).map(|i| (i * 7 + 0xA5) as u8).collect()
}

#[test]
fn the_negation_of_true() {
    let frame = [0x02, 0xBD, 0x02, 0x62];
    assert_eq!(check(&frame), Ok(()));
    let mut out = lent(3);
    assert_eq!(step(&frame, 0, &mut out), Ok(Step::Changed(2)));
    assert_eq!(out, [0x02, 0x63, lent(3)[2]]);
    assert_eq!(step(&frame, 1, &mut out), Ok(Step::Unchanged));
    assert_eq!(step(&frame, 2, &mut out), Err(Refused(11)));
    assert_eq!(out, [0x02, 0x63, lent(3)[2]]);
    let mut out = lent(FRAME_LIMIT);
    assert_eq!(run(&frame, 65535, &mut out), Ok(Run { word: Word::Rest, count: 1, length: 2 }));
    assert_eq!(out[..2], [0x02, 0x63]);
    assert_eq!(out[2..], lent(FRAME_LIMIT)[2..]);
}

#[test]
fn budgets_and_buffers() {
    let frame = bytes("026C012D02000501019501970300").unwrap();
    let mut out = lent(FRAME_LIMIT + 1);
    for budget in 0..4 {
        let answer = run(&frame, budget, &mut out).unwrap();
        assert_eq!((answer.word, answer.count), (Word::Spent, budget));
    }
    assert_eq!(run(&frame, 4, &mut out), Ok(Run { word: Word::Rest, count: 4, length: 2 }));
    let mut short = lent(FRAME_LIMIT - 1);
    assert_eq!(run(&frame, 4, &mut short), Err(Refused(12)));
    assert_eq!(short, lent(FRAME_LIMIT - 1));
    assert_eq!(run(&[], 4, &mut []), Err(Refused(2)));
    assert_eq!(step(&[], 0, &mut []), Err(Refused(2)));
    assert_eq!(check(&[]), Err(Refused(2)));
}

/// Does it on a thread with the stack that the header names.
fn on_that_stack(work: fn()) {
    let thread = std::thread::Builder::new().stack_size(2 << 20).spawn(work).unwrap();
    thread.join().unwrap();
}

/// 2,047 negations, the deepest frame.
#[test]
fn the_deepest_frame() {
    on_that_stack(|| {
        let mut frame = [0x02, 0xBD].repeat(2047);
        frame.extend([0x02, 0x62]);
        let mut out = lent(FRAME_LIMIT);
        assert_eq!(check(&frame), Ok(()));
        assert_eq!(step(&frame, 2046, &mut out), Ok(Step::Changed(4094)));
        let answer = run(&frame, 65535, &mut out).unwrap();
        assert_eq!((answer.word, answer.length), (Word::Rest, 2));
    });
}

/// 1,023 implications, each the left side of the one around it: reading comes back to every one for its right side.
#[test]
fn the_deepest_left_sides() {
    on_that_stack(|| {
        let nested = |n: usize| [[0x00, 0xFB].repeat(n), [0x02, 0x62].repeat(n + 1)].concat();
        let old = lent(FRAME_LIMIT);
        let frame = nested(1023);
        assert_eq!(frame.len(), 4094);
        assert_eq!(check(&frame), Ok(()));
        // the first is P ⇒ ⊤, which becomes ⊤; the last is ⊤ ⇒ ⊤, which becomes its right side
        assert_eq!(step_text(&frame, 0, &old), "CHANGED 0262");
        assert_eq!(step_text(&frame, 1022, &old), format!("CHANGED {}", hex(&nested(1022))));
        assert_eq!(run_text(&frame, 65535, &old), "REST 1 0262");
        assert_eq!(run_text(&frame, 0, &old), format!("SPENT 0 {}", hex(&frame)));
    });
}

/// What a check, a step and a run answer, as `replay` prints it. All bytes of the output that must stay as they were are looked at.
fn check_text(frame: &[u8]) -> String {
    check(frame).map_or_else(|Refused(c)| format!("REFUSED {c}"), |()| "CHECKED".to_string())
}

fn step_text(frame: &[u8], place: u64, old: &[u8]) -> String {
    let mut out = old.to_vec();
    let answer = step(frame, place, &mut out);
    let written = if let Ok(Step::Changed(n)) = answer { n } else { 0 };
    assert_eq!(out[written..], old[written..]);
    match answer {
        Ok(Step::Changed(n)) => format!("CHANGED {}", hex(&out[..n])),
        Ok(Step::Unchanged) => "UNCHANGED".to_string(),
        Err(Refused(c)) => format!("REFUSED {c}"),
    }
}

fn run_text(frame: &[u8], budget: u32, old: &[u8]) -> String {
    let mut out = old.to_vec();
    let answer = run(frame, budget, &mut out);
    let written = answer.as_ref().map_or(0, |r| r.length);
    assert_eq!(out[written..], old[written..]);
    match answer {
        Ok(Run { word, count, length }) => {
            let word = match word {
                Word::Rest => "REST",
                Word::Spent => "SPENT",
                Word::Full => "FULL",
            };
            format!("{word} {count} {}", hex(&out[..length]))
        }
        Err(Refused(c)) => format!("REFUSED {c}"),
    }
}

/// Lines `F FRAME`, `S PLACE LENT FRAME`, `R BUDGET LENT FRAME` and the answers that `replay` prints: for a frame that is read the
/// count of nodes stands in front of what the checks say.
#[test]
fn answers_as_the_program() {
    let (input, output) = (file("replay", "stdin"), file("replay", "stdout"));
    assert_eq!(input.split('\n').count(), output.lines().count());
    let mut compared = [0; 3];
    for (line, answer) in input.split('\n').zip(output.lines()) {
        if answer == "REFUSED 1" {
            continue;
        }
        let words: Vec<&str> = line.split(' ').collect();
        let frame = bytes(words[words.len() - 1]).unwrap();
        let old = |length: &str| lent(length.parse().unwrap());
        let (form, got) = match words[..] {
            ["F", _] => (0, check_text(&frame)),
            ["S", place, length, _] => (1, step_text(&frame, place.parse().unwrap(), &old(length))),
            ["R", budget, length, _] => (2, run_text(&frame, budget.parse().unwrap(), &old(length))),
            _ => panic!("{line}"),
        };
        let told = if form == 0 { answer.trim_start_matches(|c: char| c.is_ascii_digit()).trim_start() } else { answer };
        assert_eq!(got, told, "{line}");
        compared[form] += 1;
    }
    assert!(compared[0] > 1000 && compared[1] > 500 && compared[2] > 50, "{compared:?}");
}

/// Lines and the answers that `simplify` prints.
#[test]
fn runs_as_the_program() {
    let (input, output) = (file("simplify", "stdin"), file("simplify", "stdout"));
    assert_eq!(input.split('\n').count(), output.lines().count());
    let old = lent(FRAME_LIMIT);
    for (line, answer) in input.split('\n').zip(output.lines()) {
        let Some(frame) = bytes(line) else {
            assert_eq!(answer, "REFUSED 1");
            continue;
        };
        let got = run_text(&frame, 65535, &old);
        assert_eq!(got, answer, "{line}");
        assert_eq!(check(&frame).is_ok(), !got.starts_with("REFUSED"));
    }
}
