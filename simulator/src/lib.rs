//! One move of a lane of wagons, made by a proved library.
//!
//! A line of an order book allows a move. [`move_lane`] takes the line as text, a position in plain numbers and the number
//! to carry out, and either makes the move or says why not.
//!
//! ```
//! // In mode 0 with wagon 1 on top, order 0 sets down wagons 2 and 1 in its place.
//! let mut buffer = [1, 7, 9, 9];
//! let moved = zenturpa::move_lane("(order 0 (0 1) (0 2 1) (3 0))", 0, 0b111, &mut buffer, 2, 0)?;
//! assert_eq!(moved, zenturpa::Moved { mode: 0, phase: 0b111, len: 3 });
//! assert_eq!(buffer, [2, 1, 7, 9]);
//! # Ok::<(), zenturpa::Refusal>(())
//! ```
//!
//! What the library promises is proved of the function behind this one; see `README.md`. This wrapper itself is not: it
//! hands its arguments over and turns the answer into a `Result`.

#![warn(missing_docs)]

use std::error::Error;
use std::fmt;

/// Where a move leads.
#[derive(Clone, Copy, Debug, PartialEq, Eq)]
pub struct Moved {
    /// The mode after the move.
    pub mode: u8,
    /// The phase after the move: bit n is set where number n is in force.
    pub phase: u64,
    /// How many wagons the lane has after the move. They stand in the first bytes of the buffer.
    pub len: usize,
}

/// Why a move was refused. Nothing has changed then.
///
/// It prints its number, its place and the reason in words:
///
/// ```
/// let refusal = zenturpa::move_lane("(order 64", 0, 0, &mut [], 0, 0).unwrap_err();
/// assert_eq!(refusal.to_string(), "refused 1 at 10: the text is no order line and no notice line from this byte on");
/// ```
#[derive(Clone, Copy, Debug, PartialEq, Eq)]
pub struct Refusal {
    number: u32,
    place: usize,
}

impl Refusal {
    /// The number of the refusal: 1, 2, 6, 9, 15, 16 or 17.
    pub fn number(self) -> u32 {
        self.number
    }

    /// For 1 and 2 the byte of the text, counted from 1; for 6 the number that was to be carried out; else 0.
    pub fn place(self) -> usize {
        self.place
    }

    /// The reason in words.
    pub fn reason(self) -> &'static str {
        match self.number {
            1 => "the text is no order line and no notice line from this byte on",
            2 => "the number that begins at this byte of the text is above its limit",
            6 => "the number to carry out is not the number of the line",
            9 => "the mode is above 15, a wagon is above 31, or the lane is longer than its buffer",
            15 => "the number, or the number that the notice withdraws, is not in the phase",
            16 => "the mode, the top or an empty lane forbids the move",
            17 => "the lane after the move is longer than the buffer",
            _ => "the refusal has a number that this wrapper does not know",
        }
    }
}

impl fmt::Display for Refusal {
    fn fmt(&self, f: &mut fmt::Formatter<'_>) -> fmt::Result {
        write!(f, "refused {} at {}: {}", self.number, self.place, self.reason())
    }
}

impl Error for Refusal {}

/// What the library answers, in the layout of `include/zenturpa.h`.
#[repr(C)]
struct Answer {
    refusal: u32,
    mode: u32,
    place: usize,
    phase: u64,
    len: usize,
}

unsafe extern "C" {
    fn zenturpa_move(
        line: *const u8,
        line_len: usize,
        mode: u8,
        phase: u64,
        buffer: *mut u8,
        buffer_len: usize,
        len: usize,
        number: u8,
    ) -> Answer;
}

/// Carries out the order or notice `number` that the text `line` says.
///
/// The lane is the first `len` bytes of `buffer`, one byte for each wagon, the top first. In `phase` bit n is set where
/// number n is in force.
///
/// After a move the lane is the first [`Moved::len`] bytes of the buffer, and the bytes behind it are as they were. An
/// order that sets down two wagons wants one byte more than the lane has.
///
/// # Errors
///
/// A [`Refusal`], which leaves the buffer as it was. Any text, numbers and bytes may be handed over: the call never
/// panics.
pub fn move_lane(
    line: impl AsRef<[u8]>,
    mode: u8,
    phase: u64,
    buffer: &mut [u8],
    len: usize,
    number: u8,
) -> Result<Moved, Refusal> {
    let line = line.as_ref();
    // SAFETY: each pointer comes from a slice, with that slice's length, and the slices cannot overlap. The library reads
    // and writes nothing else, and keeps neither pointer.
    let answer = unsafe {
        zenturpa_move(line.as_ptr(), line.len(), mode, phase, buffer.as_mut_ptr(), buffer.len(), len, number)
    };
    if answer.refusal == 0 {
        // A mode is at most 15, so nothing is cut off.
        Ok(Moved { mode: answer.mode as u8, phase: answer.phase, len: answer.len })
    } else {
        Err(Refusal { number: answer.refusal, place: answer.place })
    }
}
