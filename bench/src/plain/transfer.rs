//! The open transfer: what it is, whether it is well formed, how it may end.

#[derive(Clone, Copy, Debug, PartialEq, Eq)]
pub enum Kind {
    Private,
    Direct,
    Broadcast,
}

/// An open write or read. The bytes gathered, or left to send, stand at the top of `part`.
#[derive(Clone, Copy, Debug, PartialEq, Eq)]
pub struct Transfer {
    pub kind: Kind,
    pub header: bool,
    /// Of a broadcast always true.
    pub attached: bool,
    pub length: u16,
    pub moved: u16,
    pub part: u32,
}

impl Transfer {
    /// `held` bytes stand in the part word, the rest of it is 0.
    fn is_ok(&self, held: u16) -> bool {
        let most = if self.attached { self.length } else { 0 };
        (self.length < 4096) & (self.moved <= most) & (self.part << (8 * held) == 0)
    }

    pub fn may_end(&self, code: u8, reads: bool) -> bool {
        if !self.attached {
            return code == 8;
        }
        let private = self.kind == Kind::Private;
        match code {
            0 => self.moved == self.length || (reads && private),
            1 => reads && !private && self.moved != self.length,
            4 => self.moved == 0 && (!private || self.header),
            6 => self.moved == 0 && self.kind != Kind::Broadcast,
            _ => false,
        }
    }
}

/// The requests of an address assignment: none yet, one open, or some and none open.
#[derive(Clone, Copy, Debug, PartialEq, Eq)]
pub enum Requests {
    None,
    Open,
    Answered,
}

/// An address assignment moves no bytes, and so holds no count that could be wrong.
#[derive(Clone, Copy, Debug, PartialEq, Eq)]
pub enum Phase {
    Idle,
    Writing(Transfer),
    Reading(Transfer),
    Assigning(Requests),
}

impl Phase {
    pub fn is_ok(&self) -> bool {
        match self {
            Phase::Idle | Phase::Assigning(_) => true,
            Phase::Writing(t) => t.is_ok(t.moved.wrapping_neg() % 4),
            Phase::Reading(t) => t.is_ok(t.moved % 4),
        }
    }

    /// The open transfer's device was not attached at its start.
    pub fn is_unattached(&self) -> bool {
        matches!(self, Phase::Writing(t) | Phase::Reading(t) if !t.attached)
    }

    pub fn is_idle(&self) -> bool {
        matches!(self, Phase::Idle)
    }
}
