//! What a run comes to by the whole list of its draws: nothing is carried from one draw to the next.

use crate::host::{Run, RUN_ENDED, RUN_OPEN, RUN_REFUSED};

pub struct Whole {
    pub stop: usize,
    pub size: usize,
    pub draws: Vec<u8>,
    /// Where in the list a 0 or a 1 stands.
    valid: Vec<usize>,
    /// Which of those are ones, counted from 1.
    ones: Vec<usize>,
}

impl Whole {
    pub fn new(stop: usize, size: usize, draws: Vec<u8>) -> Whole {
        let valid: Vec<usize> = (0..draws.len()).filter(|at| draws[*at] <= 1).collect();
        let ones = (1..=valid.len()).filter(|rank| draws[valid[rank - 1]] == 1).collect();
        Whole { stop, size, draws, valid, ones }
    }

    /// How many of the list's draws up to this one are 0 or 1.
    pub fn rank(&self, at: usize) -> usize {
        self.valid.partition_point(|place| *place <= at)
    }

    /// The h-th one's place among the valid draws, if the list has it.
    fn stopping(&self) -> Option<usize> {
        self.ones.get(self.stop - 1).copied()
    }

    /// The last draw that the run takes, if the list is long enough.
    pub fn last(&self) -> usize {
        self.stopping().map_or(self.size - 1, |rank| rank.min(self.size - 1))
    }

    /// What the call at this place of the list hands back.
    pub fn outcome(&self, at: usize) -> Run {
        let (rank, last) = (self.rank(at), self.last());
        let taken = rank.min(last);
        let ones = self.ones.partition_point(|one| *one <= taken);
        let (answer, first, second) = match self.draws[at] {
            2.. => (RUN_REFUSED, 9, 0),
            _ if rank > last => (RUN_REFUSED, 10, 0),
            _ if rank < last => (RUN_OPEN, 0, 0),
            _ if self.stopping() == Some(rank) => (RUN_ENDED, self.stop, rank),
            _ => (RUN_ENDED, ones + 1, self.size),
        };
        let [first, second, stop, size] = [first, second, self.stop, self.size].map(|x| x as u32);
        Run { answer, first, second, stop, size, taken: taken as u32, ones: ones as u32 }
    }
}
