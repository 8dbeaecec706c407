//! "The queue of demand 3": a row of plugin numbers. "Nothing of the gate's
//! words, records or answers reaches it": this file uses nothing of the gate.

/// "It keeps ... each plugin's region and stop mark."
#[derive(Clone, Copy, Debug, PartialEq, Eq, Hash)]
pub enum Region {
    Idle,
    Waiting,
    Inside,
}

/// What a call answers here. Take's ticket is the gate's affair, so an accepted
/// take is just done.
#[derive(Clone, Copy, Debug, PartialEq, Eq)]
pub enum Reply {
    Done,
    YesNo(bool),
    Place(usize),
    Refused(u8),
}

/// "It keeps N, k, a row of plugin numbers, and each plugin's region and stop
/// mark."
#[derive(Clone, Debug)]
pub struct Queue {
    pub n: usize,
    pub k: usize,
    pub row: Vec<usize>,
    regions: Vec<Region>,
    stopped: Vec<bool>,
}

impl Queue {
    /// "At first the row is empty and all are idle and unmarked."
    pub fn open(n: usize, k: usize) -> Queue {
        Queue {
            n,
            k,
            row: Vec::new(),
            regions: vec![Region::Idle; n],
            stopped: vec![false; n],
        }
    }

    pub fn region(&self, p: usize) -> Region {
        self.regions[p - 1]
    }

    pub fn stopped(&self, p: usize) -> bool {
        self.stopped[p - 1]
    }

    /// "a ticket is valid just when its holder is among the first k of the row."
    pub fn among_first(&self, p: usize) -> bool {
        self.row.iter().take(self.k).any(|&other| other == p)
    }

    /// "Take appends p to the row; p waits."
    pub fn take(&mut self, p: usize) -> Reply {
        if let Some(refusal) = self.refusal(p, Region::Idle) {
            return refusal;
        }
        self.row.push(p);
        self.regions[p - 1] = Region::Waiting;
        Reply::Done
    }

    /// "Look is yes exactly when p is among the first k; a yes puts p inside, a
    /// no changes nothing."
    pub fn look(&mut self, p: usize) -> Reply {
        if let Some(refusal) = self.refusal(p, Region::Waiting) {
            return refusal;
        }
        let yes = self.among_first(p);
        if yes {
            self.regions[p - 1] = Region::Inside;
        }
        Reply::YesNo(yes)
    }

    /// "Leave removes p from the row; p is idle." Document 02, A.2: "The queue
    /// drops such a plugin from its first k", one that waits there. "9, leave by
    /// a waiting plugin with an invalid ticket, after 5; leave's 6 is now for idle
    /// plugins only."
    pub fn leave(&mut self, p: usize) -> Reply {
        if let Some(refusal) = self.absent_or_stopped(p) {
            return refusal;
        }
        match self.region(p) {
            Region::Idle => return Reply::Refused(6),
            Region::Waiting if !self.among_first(p) => return Reply::Refused(9),
            Region::Waiting | Region::Inside => {}
        }
        self.row.retain(|&other| other != p);
        self.regions[p - 1] = Region::Idle;
        Reply::Done
    }

    /// "p's position, counted from 1"; document 02, A.1: "The queue's place
    /// becomes the position less k, never below 0."
    pub fn place(&self, p: usize) -> Reply {
        if let Some(refusal) = self.refusal(p, Region::Waiting) {
            return refusal;
        }
        let before = self.row.iter().take_while(|&&other| other != p).count();
        let position = before + 1;
        Reply::Place(position.saturating_sub(self.k))
    }

    /// "Stop sets p's mark". 4, then 5: already stopped.
    pub fn stop(&mut self, p: usize) -> Reply {
        if self.no_plugin(p) {
            Reply::Refused(4)
        } else if self.stopped(p) {
            Reply::Refused(5)
        } else {
            self.stopped[p - 1] = true;
            Reply::Done
        }
    }

    /// "wake clears it". 4, then 7: not stopped.
    pub fn wake(&mut self, p: usize) -> Reply {
        if self.no_plugin(p) {
            Reply::Refused(4)
        } else if !self.stopped(p) {
            Reply::Refused(7)
        } else {
            self.stopped[p - 1] = false;
            Reply::Done
        }
    }

    fn no_plugin(&self, p: usize) -> bool {
        p == 0 || p > self.n
    }

    /// "A call meets the refusals given for it above from 4 on, in that order,
    /// judged by its arguments and by what the queue keeps."
    fn refusal(&self, p: usize, wanted: Region) -> Option<Reply> {
        self.absent_or_stopped(p)
            .or_else(|| (self.region(p) != wanted).then_some(Reply::Refused(6)))
    }

    /// 4 and 5.
    fn absent_or_stopped(&self, p: usize) -> Option<Reply> {
        if self.no_plugin(p) {
            Some(Reply::Refused(4))
        } else if self.stopped(p) {
            Some(Reply::Refused(5))
        } else {
            None
        }
    }
}
