//! Event-B predicates as frames: checked, stepped and run by the proved library.
//!
//! The functions here are safe: a slice is a pointer to as many bytes as its length says, it is never null, and `&[u8]` and
//! `&mut [u8]` are apart. That is all that the library asks of its caller, but for 2 MiB of stack.

/// The bytes of the longest frame; a run asks for an output of so many.
pub const FRAME_LIMIT: usize = 4096;

/// What something is refused with: a number of README.md's table, 2 to 12.
#[derive(Clone, Copy, Debug, PartialEq, Eq)]
pub struct Refused(pub u8);

/// What a step answers.
#[derive(Clone, Copy, Debug, PartialEq, Eq)]
pub enum Step {
    /// The length of the new frame, which stands at the start of the output.
    Changed(usize),
    Unchanged,
}

/// Why a run ended.
#[derive(Clone, Copy, Debug, PartialEq, Eq)]
pub enum Word {
    /// No rule applies anywhere.
    Rest,
    /// The budget is used, and some rule still applies.
    Spent,
    /// The next step would pass 4,096 bytes.
    Full,
}

/// What a run answers: the last frame stands at the start of the output.
#[derive(Clone, Copy, Debug, PartialEq, Eq)]
pub struct Run {
    pub word: Word,
    /// How many steps changed the frame.
    pub count: u32,
    /// The length of the last frame.
    pub length: usize,
}

mod library {
    #[link(name = "lustrejasper", kind = "static")]
    extern "C" {
        pub fn lustrejasper_check(frame: *const u8, frame_len: usize) -> u64;
        pub fn lustrejasper_step(frame: *const u8, frame_len: usize, place: u64, out: *mut u8, out_len: usize) -> u64;
        pub fn lustrejasper_run(frame: *const u8, frame_len: usize, budget: u32, out: *mut u8, out_len: usize) -> u64;
    }
}

/// Whether the frame is accepted.
pub fn check(frame: &[u8]) -> Result<(), Refused> {
    // The pointer is to as many bytes as the length says, and the slice is borrowed for the call.
    match unsafe { library::lustrejasper_check(frame.as_ptr(), frame.len()) } {
        0 => Ok(()),
        number => Err(Refused(number as u8)),
    }
}

/// The step at a place of the frame. Bytes of the output behind the new frame are kept; where no frame is written, all of them.
pub fn step(frame: &[u8], place: u64, out: &mut [u8]) -> Result<Step, Refused> {
    // The pointers are to as many bytes as the lengths say, and the two slices are apart.
    let answer = unsafe { library::lustrejasper_step(frame.as_ptr(), frame.len(), place, out.as_mut_ptr(), out.len()) };
    let value = (answer & 0xFFFF) as usize;
    match answer >> 16 {
        0 => Ok(Step::Unchanged),
        1 => Ok(Step::Changed(value)),
        _ => Err(Refused(value as u8)),
    }
}

/// Steps at the first place where a rule applies, `budget` of them at most. The output has 4,096 bytes at least; those behind the
/// last frame are kept.
pub fn run(frame: &[u8], budget: u32, out: &mut [u8]) -> Result<Run, Refused> {
    // As in `step`.
    let answer = unsafe { library::lustrejasper_run(frame.as_ptr(), frame.len(), budget, out.as_mut_ptr(), out.len()) };
    let word = match answer >> 48 {
        1 => Word::Rest,
        2 => Word::Spent,
        3 => Word::Full,
        _ => return Err(Refused(answer as u8)),
    };
    Ok(Run {
        word,
        count: answer as u32,
        length: (answer >> 32 & 0xFFFF) as usize,
    })
}
