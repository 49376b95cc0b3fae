//! The numbers of a set-up.

/// One queue of a [`SetUp`]: sizes in words.
#[derive(Clone, Copy, Debug, PartialEq, Eq, Hash)]
pub struct Queue {
    /// How many words it has place for: 1 to 1,024, at least 2 for CMD and SDI.
    pub capacity: u32,
    /// Where its interrupt begins, 0 to the capacity: CMD and SDO tell a level below it, the others a
    /// level above.
    pub watermark: u32,
}

/// What a controller is set up with: five queues and an ID.
///
/// ```
/// use thymewax::{Model, Number, Queue, SetUp};
///
/// let deep = Queue { capacity: 64, watermark: 8 };
/// assert!(Model::set_up(&SetUp { cmd: deep, ..SetUp::SESSION }).is_ok());
///
/// let wrong = Queue { capacity: 64, watermark: 65 };
/// let refusal = Model::set_up(&SetUp { cmd: wrong, ..SetUp::SESSION }).unwrap_err();
/// assert_eq!(refusal.number(), Number::SET_UP_OUT_OF_RANGE);
/// ```
#[derive(Clone, Copy, Debug, PartialEq, Eq, Hash)]
pub struct SetUp {
    /// Commands, from the driver to the bus.
    pub cmd: Queue,
    /// Receipts of commands.
    pub cmdr: Queue,
    /// Payload from the driver to the bus.
    pub sdo: Queue,
    /// Payload from the bus to the driver.
    pub sdi: Queue,
    /// Interrupts of devices.
    pub ibi: Queue,
    /// What DEVICE_ID reads: 0 to 255.
    pub id: u32,
}

const ALMOST_EMPTY: Queue = Queue {
    capacity: 4,
    watermark: 1,
};

const ALMOST_FULL: Queue = Queue {
    capacity: 4,
    watermark: 3,
};

impl SetUp {
    /// The set-up of the program `session`: every capacity 4, the watermarks of CMD and SDO 1, the
    /// others 3, ID 0.
    pub const SESSION: SetUp = SetUp {
        cmd: ALMOST_EMPTY,
        cmdr: ALMOST_FULL,
        sdo: ALMOST_EMPTY,
        sdi: ALMOST_FULL,
        ibi: ALMOST_FULL,
        id: 0,
    };

    /// In the order of the store.
    fn queues(&self) -> [Queue; 5] {
        [self.cmd, self.cmdr, self.sdo, self.sdi, self.ibi]
    }

    pub(crate) fn capacities(&self) -> [u32; 5] {
        self.queues().map(|queue| queue.capacity)
    }

    pub(crate) fn watermarks(&self) -> [u32; 5] {
        self.queues().map(|queue| queue.watermark)
    }
}
