//! Calls that write one bidder's list from terms: what they leave in a buffer of sevens and in the count.

use crate::written::{kind, Written};
use pas::{Bidder, Constraint};
use std::fmt::Debug;

pub trait WritesTerms: Debug {
    /// The number, with what the call leaves in a buffer of sevens and in the count, which is 77 before it.
    fn lent(&self, room: usize) -> (u32, Vec<u8>, u32);

    /// These constraints are written, in a buffer that is just long enough and in longer ones, with every later byte as it was; in a shorter one none is.
    #[track_caller]
    fn gives(&self, constraints: &[Written]) {
        let (bytes, count) = (constraints.as_flattened(), constraints.len() as u32);
        assert_eq!(self.lent(bytes.len()), (0, bytes.to_vec(), count), "{self:?}");
        for more in [1, 3, 4, 100, 5000] {
            let with_sevens = [bytes, &vec![7; more]].concat();
            assert_eq!(self.lent(bytes.len() + more), (0, with_sevens, count), "{self:?}");
        }
        for room in [0, 1, bytes.len() / 2, bytes.len().saturating_sub(4), bytes.len().saturating_sub(1)] {
            if room < bytes.len() {
                assert_eq!(self.lent(room), (19, vec![7; room], 77), "{self:?}, room for {room}");
            }
        }
    }

    /// The call is refused with the number, whatever the buffer, and nothing lent has changed.
    #[track_caller]
    fn refused(&self, number: u32) {
        for room in [0, 1, 4, 20, 24, 4056, 4091, 4092, 5000] {
            assert_eq!(self.lent(room), (number, vec![7; room], 77), "{self:?}, room for {room}");
        }
    }
}

pub fn constraint(written: Written) -> Constraint {
    Constraint { owner: Bidder(written[0]), kind: kind(written) }
}
