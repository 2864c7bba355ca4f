//! What a caller lends, counted: each kind of room has a limit, what is in use and its peak.

use wire::Lent;

#[derive(Debug)]
pub struct Refusal {
    pub number: u32,
    pub place: usize,
}

#[derive(Clone, Copy, Debug, PartialEq, Eq)]
pub enum Room {
    Locals,
    Frames,
    Captures,
    References,
    Out,
    Diagnostics,
}

impl Room {
    pub const ALL: [Room; 6] = [
        Room::Locals,
        Room::Frames,
        Room::Captures,
        Room::References,
        Room::Out,
        Room::Diagnostics,
    ];

    /// The refusal for asking more of this room than is lent.
    fn refusal(self) -> u32 {
        match self {
            Room::Locals => 6,
            Room::Frames => 7,
            Room::Captures => 8,
            Room::References => 17,
            Room::Out => 9,
            Room::Diagnostics => 10,
        }
    }
}

/// How much of each room is lent, in the order of `Room::ALL`.
pub fn amounts(lent: &Lent) -> [u32; 6] {
    let [l, f, c, r] = lent.limits();
    [l, f, c, r, lent.out, lent.diagnostics]
}

/// The same with another amount of one room, and tables that are just long enough.
pub fn with_amount(lent: &Lent, room: Room, amount: u32) -> Lent {
    let mut changed = amounts(lent);
    changed[room as usize] = amount;
    let [l, f, c, r, out, diagnostics] = changed;
    Lent::exact([l, f, c, r], out, diagnostics)
}

/// One amount for each kind of room.
#[derive(Clone, Copy)]
pub struct Amounts([u64; 6]);

impl Amounts {
    pub const UNLIMITED: Amounts = Amounts([u64::MAX; 6]);
    const NOTHING: Amounts = Amounts([0; 6]);

    pub fn lent(lent: &Lent) -> Amounts {
        Amounts(amounts(lent).map(u64::from))
    }

    pub fn limits(&self) -> [u32; 4] {
        [
            self.0[0] as u32,
            self.0[1] as u32,
            self.0[2] as u32,
            self.0[3] as u32,
        ]
    }

    pub fn out(&self) -> u32 {
        self.0[Room::Out as usize] as u32
    }

    pub fn diagnostics(&self) -> u32 {
        self.0[Room::Diagnostics as usize] as u32
    }
}

/// A moment at which more of a room is in use than ever before.
#[derive(Clone, Copy, Debug)]
pub struct Peak {
    pub room: Room,
    pub before: u32,
    pub used: u32,
    pub place: usize,
}

pub struct Rooms {
    limit: Amounts,
    used: Amounts,
    pub peak: Amounts,
    pub peaks: Option<Vec<Peak>>,
}

impl Rooms {
    pub fn new(limit: Amounts, peaks: Option<Vec<Peak>>) -> Rooms {
        Rooms {
            limit,
            used: Amounts::NOTHING,
            peak: Amounts::NOTHING,
            peaks,
        }
    }

    pub fn take(&mut self, room: Room, amount: usize, place: usize) -> Result<(), Refusal> {
        let before = self.peak.0[room as usize];
        self.take_unjudged(room, amount);
        let used = self.peak.0[room as usize];
        if let Some(peaks) = &mut self.peaks
            && used > before
        {
            peaks.push(Peak {
                room,
                before: before as u32,
                used: used as u32,
                place,
            });
        }
        if self.used.0[room as usize] > self.limit.0[room as usize] {
            return Err(Refusal {
                number: room.refusal(),
                place,
            });
        }
        Ok(())
    }

    pub fn take_unjudged(&mut self, room: Room, amount: usize) {
        let used = &mut self.used.0[room as usize];
        *used += amount as u64;
        let peak = &mut self.peak.0[room as usize];
        *peak = (*peak).max(*used);
    }

    pub fn give_back(&mut self, room: Room, amount: usize) {
        self.used.0[room as usize] -= amount as u64;
    }
}
