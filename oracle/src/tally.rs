//! The tally: six totals that the caller lends and a slot brings up to date.

use std::fmt;

#[derive(Clone, Copy, Debug, Default, PartialEq, Eq)]
pub struct Tally {
    pub offered: u32,
    pub taken_in: u32,
    pub over: u32,
    pub no_room: u32,
    pub sent: u32,
    pub waiting: u32,
}

impl Tally {
    pub fn new(totals: [u32; 6]) -> Tally {
        let [offered, taken_in, over, no_room, sent, waiting] = totals;
        Tally {
            offered,
            taken_in,
            over,
            no_room,
            sent,
            waiting,
        }
    }

    /// The six in the order in which they are printed.
    pub fn totals(&self) -> [u32; 6] {
        [
            self.offered,
            self.taken_in,
            self.over,
            self.no_room,
            self.sent,
            self.waiting,
        ]
    }

    /// The tally after one more slot: five totals are added to, waiting is set. None if one of
    /// the five would pass 4,294,967,295.
    pub fn after(&self, slot: &Tally) -> Option<Tally> {
        Some(Tally {
            offered: self.offered.checked_add(slot.offered)?,
            taken_in: self.taken_in.checked_add(slot.taken_in)?,
            over: self.over.checked_add(slot.over)?,
            no_room: self.no_room.checked_add(slot.no_room)?,
            sent: self.sent.checked_add(slot.sent)?,
            waiting: slot.waiting,
        })
    }
}

impl fmt::Display for Tally {
    fn fmt(&self, to: &mut fmt::Formatter) -> fmt::Result {
        write!(to, "total")?;
        for total in self.totals() {
            write!(to, " {total}")?;
        }
        Ok(())
    }
}
