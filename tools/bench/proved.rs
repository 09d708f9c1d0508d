//! The proved code, from the static library of the crate `solver_c`.

/// Room for the longest text.
const ROOM: usize = 320;

/// As the crate has it.
#[repr(C)]
struct Answer {
    bytes: usize,
    pivot: u64,
    solved: bool,
}

type SolveCard = unsafe extern "C" fn(*const u8, usize, *mut u8, usize) -> Answer;

unsafe extern "C" {
    fn solver_c_solve_card(card: *const u8, length: usize, out: *mut u8, room: usize) -> Answer;

    /// The same of another state of the crates, under another name.
    #[cfg(before)]
    fn before_solve_card(card: *const u8, length: usize, out: *mut u8, room: usize) -> Answer;
}

/// Adds the sheet of a card's job, or the card's refusal, to a text. Of a job that opens, the 64 bits of the smallest pivot.
fn shown(solve_card: SolveCard, card: &[u8], text: &mut Vec<u8>) -> Option<u64> {
    let mut out = [0; ROOM];
    // SAFETY: the declarations fit those of the crate, and each pointer and length are of a list that is borrowed for the call. The
    // function asks nothing of what the lists hold.
    let answer = unsafe { solve_card(card.as_ptr(), card.len(), out.as_mut_ptr(), out.len()) };
    text.extend_from_slice(&out[..answer.bytes]);
    answer.solved.then_some(answer.pivot)
}

/// What the library shows of a card.
pub fn show(card: &[u8], text: &mut Vec<u8>) -> Option<u64> {
    shown(solver_c_solve_card, card, text)
}

/// What the library of another state shows of a card.
#[cfg(before)]
pub fn show_before(card: &[u8], text: &mut Vec<u8>) -> Option<u64> {
    shown(before_solve_card, card, text)
}
