//! Random histories of reads, always the same from the same seed: what a caller does with a plan, a lent list and the
//! count of its entries, one thing after the other.

use crate::damage::{any_row, flawed};
use crate::gen::{draft, Rng, Size, SMALL, TINY};
use crate::plan::{read, Refusal};
use crate::reads::{
    enter_popularity, enter_read, entries, usable, Entry, HALF_TURN, MOST_ENTRIES, WINDOW,
};

/// What a caller does next.
#[derive(Clone, Debug, PartialEq, Eq)]
pub enum Event {
    /// Takes these bytes for the plan.
    Plan(Vec<u8>),
    /// Takes these records for the list.
    List(Vec<Entry>),
    /// Hands in this count of entries.
    Count(u64),
    /// Enters a read of a block at a tick.
    Read { block: u32, tick: u32 },
    /// Asks for a block's popularity.
    Popularity { block: u32 },
}

/// What a caller has in hand. At first the plan and the list are empty.
#[derive(Clone, Debug, Default, PartialEq, Eq)]
pub struct Caller {
    pub plan: Vec<u8>,
    pub list: Vec<Entry>,
    pub count: u64,
}

impl Caller {
    /// Does what comes next; answers what a call answers, and none where there is no call. The count that an accepted
    /// read answers is handed in from then on.
    pub fn does(&mut self, event: &Event) -> Option<Result<u64, Refusal>> {
        match event {
            Event::Plan(bytes) => self.plan.clone_from(bytes),
            Event::List(list) => self.list.clone_from(list),
            Event::Count(count) => self.count = *count,
            Event::Read { block, tick } => return Some(self.reads(*block, *tick)),
            Event::Popularity { block } => {
                let said = enter_popularity(&self.plan, *block, &self.list, self.count);
                return Some(said);
            }
        }
        None
    }

    fn reads(&mut self, block: u32, tick: u32) -> Result<u64, Refusal> {
        let answer = enter_read(&self.plan, block, tick, &mut self.list, self.count)?;
        self.count = answer;
        Ok(answer)
    }

    /// The entries in hand.
    pub fn entries(&self) -> &[Entry] {
        entries(&self.list, self.count)
    }
}

/// How long a history is, and of what kind.
#[derive(Clone, Copy, Debug)]
pub struct Manner {
    /// The records of the list.
    pub room: usize,
    /// The calls, beside what is done between them.
    pub calls: u64,
    /// Between calls the list and the count are also altered by others.
    pub damaged: bool,
    /// Reads follow each other closely, so that the entries are many.
    pub dense: bool,
    /// The versions of the plans.
    pub versions: &'static [u16],
}

/// A manner at random. The list is mostly short, so that it is soon full; some have 4,096 records or about, of which many
/// are entries from the beginning, and some more.
pub fn manner(rng: &mut Rng) -> Manner {
    let long = rng.once_in(12);
    let room = match (long, rng.below(10)) {
        (false, 0) => 0,
        (false, _) => rng.from_to(1, 10) as usize,
        (true, 0..=4) => MOST_ENTRIES,
        (true, _) => rng.from_to(4090, 4200) as usize,
    };
    Manner {
        room,
        calls: rng.from_to(1, 40),
        damaged: long || rng.once_in(2),
        dense: long || rng.once_in(3),
        versions: &[1, 2, 3, 4],
    }
}

/// A record of any numbers; the blocks are mostly small ones.
fn garbage(rng: &mut Rng) -> Entry {
    let block = if rng.once_in(2) {
        rng.below(8)
    } else {
        rng.below(1 << 32)
    };
    Entry {
        block: block as u32,
        tick: rng.below(1 << 32) as u32,
    }
}

/// A history while it is made: the events so far, and what they have left in the caller's hand.
struct Author<'a> {
    rng: &'a mut Rng,
    manner: Manner,
    caller: Caller,
    /// The tick of the last accepted read.
    last: u32,
    /// A plan that is accepted.
    sound: Vec<u8>,
    events: Vec<Event>,
}

impl Author<'_> {
    fn push(&mut self, event: Event) {
        let said = self.caller.does(&event);
        if let (Event::Read { tick, .. }, Some(Ok(_))) = (&event, said) {
            self.last = *tick;
        }
        self.events.push(event);
    }

    /// Another accepted plan, of any of the versions.
    fn new_plan(&mut self) {
        let size = self.rng.one_of(&[TINY, SMALL]);
        let version = self.rng.one_of(self.manner.versions);
        self.sound = draft(self.rng, Size { version, ..size }).bytes();
        self.push(Event::Plan(self.sound.clone()));
    }

    /// The plan with a flaw.
    fn flawed_plan(&mut self) {
        let row = any_row(self.rng, u16::from(self.sound[4]));
        let bytes = flawed(self.rng, self.sound.clone(), row);
        self.push(Event::Plan(bytes));
    }

    /// A block, mostly one of the plan.
    fn block(&mut self) -> u32 {
        let blocks = read(&self.sound).map_or(0, |plan| plan.blocks.len() as u64);
        let block = match self.rng.below(24) {
            0 => blocks,
            1 => self.rng.below(1 << 32),
            2 => 1 << 16,
            3 => (1 << 32) - 1,
            _ => self.rng.below(blocks.clamp(1, 6)),
        };
        block as u32
    }

    /// Milliseconds from the last accepted read, modulo 2 to the power 32.
    fn gap(&mut self) -> u64 {
        let window = u64::from(WINDOW);
        let half = u64::from(HALF_TURN);
        let close = if self.manner.dense { 1700 } else { window / 3 };
        match self.rng.below(40) {
            0 => self.rng.from_to(half - 1, half + 1),
            1 => self.rng.below(1 << 32),
            2 => (1 << 32) - self.rng.from_to(1, 5),
            3 => self.rng.below(half),
            4 | 5 => self.rng.from_to(window - 2, window + 1),
            6 | 7 => self.rng.below(2 * window),
            8..=11 => 0,
            _ => self.rng.below(close),
        }
    }

    /// A tick: after a gap, or where some entry comes to the end of the window.
    fn tick(&mut self) -> u32 {
        let entries = self.caller.entries();
        if entries.is_empty() || !self.rng.once_in(6) {
            return self.last.wrapping_add(self.gap() as u32);
        }
        let entry = self.rng.one_of(entries);
        let age = u64::from(WINDOW) - 2 + self.rng.below(4);
        entry.tick.wrapping_add(age as u32)
    }

    /// The list with some records of any numbers.
    fn damage_list(&mut self) {
        let mut list = self.caller.list.clone();
        if list.is_empty() {
            return;
        }
        for _ in 0..self.rng.from_to(1, 4) {
            let at = self.rng.below(list.len() as u64) as usize;
            list[at] = garbage(self.rng);
        }
        self.push(Event::List(list));
    }

    /// A count at the usable length and about, far above it, or anywhere below.
    fn damage_count(&mut self) {
        let usable = usable(&self.caller.list) as u64;
        let count = match self.rng.below(6) {
            0 => usable,
            1 => usable + self.rng.from_to(1, 200),
            2 => u64::MAX,
            3 => self.rng.below(4) << 32 | self.rng.below(3),
            _ => self.rng.below(usable + 1),
        };
        self.push(Event::Count(count));
    }

    /// What is done between calls, mostly nothing.
    fn between(&mut self) {
        match self.rng.below(40) {
            0 => self.new_plan(),
            1 | 2 => self.flawed_plan(),
            3 | 4 if self.manner.damaged => self.damage_list(),
            5..=7 if self.manner.damaged => self.damage_count(),
            _ if self.caller.plan != self.sound => self.push(Event::Plan(self.sound.clone())),
            _ => {}
        }
    }

    fn call(&mut self) {
        let block = self.block();
        if self.rng.once_in(4) {
            self.push(Event::Popularity { block });
        } else {
            let tick = self.tick();
            self.push(Event::Read { block, tick });
        }
    }

    /// The first list: empty, all records 0. In a damaged history it may be any records, or entries in order of which
    /// the first are soon too old.
    fn new_list(&mut self) {
        let room = self.manner.room;
        let mut list = vec![Entry::default(); room];
        if self.manner.damaged {
            let ordered = self.rng.once_in(2);
            let step = WINDOW / (room as u32 + 1);
            for (i, record) in list.iter_mut().enumerate() {
                *record = garbage(self.rng);
                if ordered {
                    record.tick = self.last.wrapping_sub((room - i) as u32 * step);
                }
            }
        }
        self.push(Event::List(list));
        self.push(Event::Count(0));
        if self.manner.damaged {
            self.damage_count();
        }
    }
}

/// A history in this manner. One that is not damaged begins with an empty list, and each call is given the list and the
/// count that the last one left.
pub fn history(rng: &mut Rng, manner: Manner) -> Vec<Event> {
    let last = match rng.below(3) {
        0 => 0_u32.wrapping_sub(rng.below(u64::from(WINDOW)) as u32),
        _ => rng.below(1 << 32) as u32,
    };
    let mut author = Author {
        rng,
        manner,
        caller: Caller::default(),
        last,
        sound: Vec::new(),
        events: Vec::new(),
    };
    author.new_plan();
    author.new_list();
    for _ in 0..manner.calls {
        author.between();
        author.call();
    }
    author.events
}
