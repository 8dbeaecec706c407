//! The plain queue that tests compare a gate with: the plugins that hold a ticket, in
//! the order in which they took it, and the free slots. The first k of the row have
//! their turn. It has the names of calls, refusals and regions from the gate's crate,
//! and nothing of a gate.

use std::collections::VecDeque;

use slot_gate::{Call, Refusal, Region};

/// What a call answers. Which ticket a take hands out is the gate's affair.
#[derive(Clone, Copy, Debug, PartialEq, Eq)]
pub enum Reply {
    Ticket,
    Yes(u8),
    No,
    Place(u16),
    Done,
}

#[derive(Clone, Copy)]
struct Plugin {
    region: Region,
    stopped: bool,
    slot: Option<u8>,
}

pub struct Queue {
    k: usize,
    row: Vec<u64>,
    plugins: Vec<Plugin>,
    free: VecDeque<u8>,
}

impl Queue {
    pub fn open(n: u16, k: u8) -> Queue {
        let idle = Plugin {
            region: Region::Idle,
            stopped: false,
            slot: None,
        };
        Queue {
            k: k.into(),
            row: Vec::new(),
            plugins: vec![idle; n.into()],
            free: (1..=k).collect(),
        }
    }

    pub fn region(&self, p: u64) -> Region {
        self.plugins[p as usize - 1].region
    }

    pub fn is_stopped(&self, p: u64) -> bool {
        self.plugins[p as usize - 1].stopped
    }

    pub fn slot(&self, p: u64) -> Option<u8> {
        self.plugins[p as usize - 1].slot
    }

    /// How many returns a plugin in the row still waits for: its position in the row
    /// less k, never below 0.
    pub fn place(&self, p: u64) -> u16 {
        let before = self.row.iter().take_while(|&&other| other != p).count();
        (before + 1).saturating_sub(self.k) as u16
    }

    pub fn call(&mut self, call: Call, p: u64) -> Result<Reply, Refusal> {
        if p == 0 || p > self.plugins.len() as u64 {
            return Err(Refusal::NoSuchPlugin);
        }
        let i = p as usize - 1;
        let Plugin {
            region, stopped, ..
        } = self.plugins[i];
        match call {
            Call::Wake if !stopped => return Err(Refusal::NotStopped),
            Call::Wake => {}
            _ if stopped => return Err(Refusal::Stopped),
            _ => {}
        }
        match (call, region) {
            (Call::Wake, _) => self.plugins[i].stopped = false,
            (Call::Stop, _) => self.plugins[i].stopped = true,
            (Call::Take, Region::Idle) => {
                self.row.push(p);
                self.plugins[i].region = Region::Waiting;
                return Ok(Reply::Ticket);
            }
            (Call::Look, Region::Waiting) if self.place(p) > 0 => return Ok(Reply::No),
            (Call::Look, Region::Waiting) => {
                let slot = self.free.pop_front().expect("a slot is free");
                self.plugins[i].region = Region::Inside;
                self.plugins[i].slot = Some(slot);
                return Ok(Reply::Yes(slot));
            }
            (Call::Place, Region::Waiting) => return Ok(Reply::Place(self.place(p))),
            (Call::Leave, Region::Waiting) if self.place(p) > 0 => {
                return Err(Refusal::NotYetValid)
            }
            (Call::Leave, Region::Waiting | Region::Inside) => {
                self.row.retain(|&other| other != p);
                self.plugins[i].region = Region::Idle;
                // A turn that is handed back returns no slot.
                self.free.extend(self.plugins[i].slot.take());
            }
            _ => return Err(Refusal::WrongRegion),
        }
        Ok(Reply::Done)
    }
}
