//! Histories of reads: the claim over any sequence of calls from an empty list, and what the random histories meet.

use placement_reference::damage::PLAN_ROWS;
use placement_reference::gen::Rng;
use placement_reference::histories::{history, manner, Caller, Event, Manner};
use placement_reference::plan::{read, Plan, Refusal};
use placement_reference::reads::{usable, Entry, MOST_ENTRIES};
use placement_reference::samples::K;

/// Two hours in milliseconds.
const TWO_HOURS: u64 = 7_200_000;

/// The accepted reads with their true times, in full width: the sums of what passed between them.
#[derive(Default)]
struct Record {
    now: u64,
    /// All accepted reads.
    reads: Vec<(u64, Entry)>,
    /// Those that were in the window at every accepted tick since.
    standing: Vec<(u64, Entry)>,
}

impl Record {
    /// The time from the last accepted read to a tick, 0 where there is none.
    fn passed(&self, tick: u32) -> u64 {
        let last = self.reads.last();
        last.map_or(0, |(_, e)| u64::from(tick.wrapping_sub(e.tick)))
    }

    /// The accepted reads that are in the window at a true time.
    fn in_window(&self, now: u64) -> Vec<Entry> {
        let young = self.reads.iter().filter(|(t, _)| now - t < TWO_HOURS);
        young.map(|(_, e)| *e).collect()
    }

    /// What a read is answered, from the true times alone.
    fn verdict(&self, plan: &Plan, entry: Entry, room: usize) -> Result<u64, Refusal> {
        let passed = self.passed(entry.tick);
        let kept = self.in_window(self.now + passed).len();
        match () {
            _ if entry.block as usize >= plan.blocks.len() => Err(19),
            _ if passed >= 1 << 31 => Err(20),
            _ if kept == room => Err(21),
            _ => Ok(kept as u64 + 1),
        }
    }

    fn accept(&mut self, entry: Entry) {
        self.now += self.passed(entry.tick);
        let now = self.now;
        self.standing.retain(|(t, _)| now - t < TWO_HOURS);
        self.standing.push((now, entry));
        self.reads.push((now, entry));
    }

    /// The popularity of a block, from the true times alone.
    fn popularity(&self, plan: &Plan, block: u32) -> Result<u64, Refusal> {
        if block as usize >= plan.blocks.len() {
            return Err(19);
        }
        let entries = self.in_window(self.now);
        let number = |block: usize| entries.iter().filter(|e| e.block as usize == block).count();
        let other = plan.partner(block as usize).map_or(0, number);
        Ok(number(block as usize).max(other) as u64)
    }
}

/// Plays a history from an empty list, and holds every answer, and the list after every call, against the true times.
/// Counts the answers by their refusals, 0 for none.
fn claimed(events: &[Event], met: &mut [u64; 24]) {
    let (mut caller, mut record) = (Caller::default(), Record::default());
    for event in events {
        let before = caller.clone();
        let Some(said) = caller.does(event) else {
            continue;
        };
        met[usize::from(said.err().unwrap_or(0))] += 1;
        let room = usable(&caller.list);
        let expected = match (read(&caller.plan), event) {
            (Err(row), _) => Err(row),
            (Ok(plan), Event::Popularity { block }) => record.popularity(&plan, *block),
            (Ok(plan), Event::Read { block, tick }) => {
                let (block, tick) = (*block, *tick);
                let entry = Entry { block, tick };
                let verdict = record.verdict(&plan, entry, room);
                if verdict.is_ok() {
                    record.accept(entry);
                }
                verdict
            }
            _ => unreachable!("a call is a read or asks for a popularity"),
        };
        assert_eq!(said, expected, "{event:?}");
        if said.is_err() || matches!(event, Event::Popularity { .. }) {
            assert_eq!(caller, before, "{event:?} wrote");
        }
        let standing: Vec<Entry> = record.standing.iter().map(|(_, e)| *e).collect();
        assert_eq!(caller.entries(), standing);
        assert_eq!(standing, record.in_window(record.now));
        let (used, past) = caller.list.split_at(room);
        let zero = |e: &Entry| *e == Entry::default();
        assert!(used[standing.len()..].iter().chain(past).all(zero));
    }
}

/// Each block's entries are its accepted reads in the window at every accepted tick since.
#[test]
fn entries_are_the_accepted_reads_in_the_window() {
    let mut met = [0; 24];
    for case in 0..20_000 {
        let rng = &mut Rng::new(case);
        let manner = Manner {
            damaged: false,
            room: rng.from_to(0, 12) as usize,
            ..manner(rng)
        };
        claimed(&history(rng, manner), &mut met);
    }
    for row in [0, 1, 17, 19, 20, 21] {
        assert!(met[row] > 500, "{met:?}");
    }
}

/// The same where a whole list is filled, of 4,096 records and of more.
#[test]
fn entries_of_a_whole_list() {
    let mut met = [0; 24];
    for room in [MOST_ENTRIES, 4200] {
        let mut events = vec![
            Event::Plan(K.to_vec()),
            Event::List(vec![Entry::default(); room]),
        ];
        for i in 0..5000 {
            let tick = u32::MAX.wrapping_add(i * 1500);
            events.push(Event::Read { block: i % 4, tick });
            if i % 100 == 0 {
                let block = i / 100 % 4;
                events.push(Event::Popularity { block });
            }
        }
        claimed(&events, &mut met);
    }
    assert!(met[0] > 8192 && met[21] > 500, "{met:?}");
}

/// The random histories meet every row, entries dropped and kept, and lists and counts of every kind.
#[test]
fn random_histories_meet_everything() {
    let (mut rows, mut dropped, mut over, mut longer) = ([0; 24], 0, 0, 0);
    for case in 0..3000 {
        let rng = &mut Rng::new(case);
        let manner = manner(rng);
        let mut caller = Caller::default();
        for event in history(rng, manner) {
            let before = caller.clone();
            let Some(said) = caller.does(&event) else {
                continue;
            };
            rows[usize::from(said.err().unwrap_or(0))] += 1;
            let accepted = said.is_ok() && matches!(event, Event::Read { .. });
            let kept_all = caller.count as usize == before.entries().len() + 1;
            dropped += u64::from(accepted && !kept_all);
            over += u64::from(accepted && before.count > usable(&before.list) as u64);
            longer += u64::from(accepted && before.list.len() > MOST_ENTRIES);
            if !accepted {
                assert_eq!(caller, before, "{event:?} wrote");
            }
        }
    }
    for row in [0, 19, 20, 21]
        .into_iter()
        .chain(PLAN_ROWS.map(usize::from))
    {
        assert!(rows[row] > 0, "{rows:?}");
    }
    assert!(
        dropped > 1000 && over > 100 && longer > 100,
        "{dropped} {over} {longer}"
    );
}
