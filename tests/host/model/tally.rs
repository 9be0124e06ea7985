//! Where every sample went: the tally that a host keeps beside its board. The model counts each
//! thing where it happens; the library's is that of `dmm32_note`.

use crate::record::Board;
use std::cell::Cell;
use std::fmt;

/// The counts, as in the C header.
#[repr(C)]
#[derive(Clone, Copy, Debug, Default, PartialEq, Eq)]
pub struct Tally {
    pub begun: u64,
    pub ended: u64,
    pub abandoned: u64,
    pub read: u64,
    pub lost: u64,
    pub cleared: u64,
}

thread_local! {
    /// What has happened in the model since this was last taken.
    static HAPPENED: Cell<Tally> = const {
        Cell::new(Tally { begun: 0, ended: 0, abandoned: 0, read: 0, lost: 0, cleared: 0 })
    };
}

/// Something happens in the model.
pub fn happens(count: impl FnOnce(&mut Tally)) {
    let mut happened = HAPPENED.get();
    count(&mut happened);
    HAPPENED.set(happened);
}

/// What has happened in the model, taken once.
pub fn happened() -> Tally {
    HAPPENED.take()
}

impl Tally {
    /// All counts so many below the highest.
    pub fn near_the_end(below: u64) -> Tally {
        let count = u64::MAX - below;
        let (begun, ended, abandoned, read, lost, cleared) =
            (count, count, count, count, count, count);
        Tally { begun, ended, abandoned, read, lost, cleared }
    }

    /// These counts and what has happened; a count that has come to the highest stays there.
    pub fn with(self, happened: Tally) -> Tally {
        let stays = |count: u64, more: u64| count.saturating_add(more);
        Tally {
            begun: stays(self.begun, happened.begun),
            ended: stays(self.ended, happened.ended),
            abandoned: stays(self.abandoned, happened.abandoned),
            read: stays(self.read, happened.read),
            lost: stays(self.lost, happened.lost),
            cleared: stays(self.cleared, happened.cleared),
        }
    }
}

impl fmt::Display for Tally {
    fn fmt(&self, out: &mut fmt::Formatter) -> fmt::Result {
        let Tally { begun, ended, abandoned, read, lost, cleared } = *self;
        write!(out, "{begun} begun, {ended} ended, {abandoned} abandoned, ")?;
        write!(out, "{read} read, {lost} lost, {cleared} cleared")
    }
}

/// A tally with the board where it began.
#[derive(Clone, Copy, PartialEq, Eq)]
pub struct Kept {
    pub counts: Tally,
    pub first: Board,
    /// It began as zeros, so that its sums hold after events.
    from_zeros: bool,
}

impl Kept {
    pub fn begun(first: Board, counts: Tally) -> Kept {
        Kept { counts, first, from_zeros: counts == Tally::default() }
    }

    /// Whether both sums hold with the board as it stands.
    pub fn adds_up(&self, counts: Tally, now: &Board) -> bool {
        let wide = u128::from;
        let held = |board: &Board| u128::from(board.fifo.held);
        let in_progress = |board: &Board| u128::from(board.converter.converting == 1);
        let went = wide(counts.read) + held(now) + wide(counts.lost) + wide(counts.cleared);
        let done = wide(counts.ended) + wide(counts.abandoned) + in_progress(now);
        wide(counts.ended) + held(&self.first) == went
            && wide(counts.begun) + in_progress(&self.first) == done
    }

    /// The counts with those ended and begun that make both sums hold but for multiples of 2^64.
    pub fn round_the_end(&self, counts: Tally, now: &Board) -> Tally {
        let came = [u64::from(now.fifo.held), counts.read, counts.lost, counts.cleared];
        let all = came.into_iter().fold(0, u64::wrapping_add);
        let ended = all.wrapping_sub(u64::from(self.first.fifo.held));
        let running = u64::from(now.converter.converting == 1);
        let first = u64::from(self.first.converter.converting == 1);
        let done = ended.wrapping_add(counts.abandoned).wrapping_add(running);
        Tally { ended, begun: done.wrapping_sub(first), ..counts }
    }

    /// Whether the sums must hold.
    pub fn must_add_up(&self) -> bool {
        self.from_zeros
    }
}
