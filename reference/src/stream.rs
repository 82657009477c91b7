//! The stream of trials: records that a trials program reads, and what it has to print.

use crate::calls::*;
use crate::convert::enter_convert;
use crate::reads::{enter_popularity, enter_read, Entry};
use crate::steps::{End, Kind, Step};

/// The bytes of a plan that the trials program keeps.
pub const PLAN_ROOM: usize = 8000;

/// The number of words that the trials program keeps.
pub const WORDS: usize = 1100;

/// The number of records of the list that the trials program keeps.
pub const RECORDS: usize = 4200;

/// The most records of the list in one record of the stream.
const RECORDS_AT_ONCE: usize = 1100;

/// Every byte of the counts' buffer before a call, and of the converter's.
pub const UNTOUCHED: u8 = 238;

/// 64-bit FNV-1a, as 16 hexadecimal digits.
pub fn digest(bytes: impl Iterator<Item = u8>) -> String {
    let hash = bytes.fold(0xCBF2_9CE4_8422_2325_u64, |hash, byte| {
        (hash ^ u64::from(byte)).wrapping_mul(0x100_0000_01B3)
    });
    format!("{hash:016x}")
}

/// A record of the list as one word: the block above the tick.
fn word_of(entry: &Entry) -> u64 {
    u64::from(entry.block) << 32 | u64::from(entry.tick)
}

/// The record of the list that a word is.
fn entry_of(word: u64) -> Entry {
    Entry {
        block: (word >> 32) as u32,
        tick: word as u32,
    }
}

/// Writes records.
#[derive(Default)]
pub struct Writer {
    pub bytes: Vec<u8>,
}

impl Writer {
    /// One record: letter, zero, length, number, payload.
    fn record(&mut self, op: u8, length: usize, number: u32, payload: &[u8]) {
        let length = u16::try_from(length).expect("a record's length has 16 bits");
        self.bytes.extend([op, 0]);
        self.bytes.extend(length.to_be_bytes());
        self.bytes.extend(number.to_be_bytes());
        self.bytes.extend(payload);
    }

    /// A title.
    pub fn title(&mut self, text: &str) {
        assert!(text.is_ascii() && text.len() <= 80, "too long: {text}");
        self.record(b'T', text.len(), 0, text.as_bytes());
    }

    /// The current plan from now on.
    pub fn plan(&mut self, bytes: &[u8]) {
        assert!(bytes.len() <= PLAN_ROOM);
        self.record(b'P', bytes.len(), 0, bytes);
    }

    /// The current words from now on, all of them lent.
    pub fn words(&mut self, words: &[u64]) {
        assert!(words.len() <= WORDS);
        let payload: Vec<u8> = words.iter().flat_map(|w| w.to_be_bytes()).collect();
        self.record(b'W', words.len(), 0, &payload);
    }

    /// The number of words lent from now on.
    pub fn lend(&mut self, number: usize) {
        assert!(number <= WORDS);
        self.record(b'L', number, 0, &[]);
    }

    /// The counts into a buffer of so many bytes.
    pub fn counts(&mut self, number: usize) {
        assert!(number <= WORDS);
        self.record(b'c', number, 0, &[]);
    }

    /// The plan as version 3 into a buffer of so many bytes.
    pub fn convert(&mut self, number: usize) {
        assert!(number <= usize::from(u16::MAX));
        self.record(b'v', number, 0, &[]);
    }

    /// Records of the list from place `at` on; those before and behind stay.
    pub fn records(&mut self, at: usize, records: &[Entry]) {
        assert!(at + records.len() <= RECORDS);
        for (k, some) in records.chunks(RECORDS_AT_ONCE).enumerate() {
            let payload: Vec<u8> = some.iter().flat_map(|e| word_of(e).to_be_bytes()).collect();
            let at = at + k * RECORDS_AT_ONCE;
            self.record(b'R', some.len(), at as u32, &payload);
        }
    }

    /// The number of records of the list lent from now on.
    pub fn lend_records(&mut self, number: usize) {
        assert!(number <= RECORDS);
        self.record(b'M', number, 0, &[]);
    }

    /// The first records of the list, all of them lent.
    pub fn list(&mut self, records: &[Entry]) {
        self.records(0, records);
        self.lend_records(records.len());
    }

    /// The count of entries that the next call hands in, of 48 bits.
    pub fn count(&mut self, count: u64) {
        let high = usize::try_from(count >> 32).expect("a length of 64 bits");
        self.record(b'N', high, count as u32, &[]);
    }

    /// A read of a block at a tick.
    pub fn read(&mut self, block: u32, tick: u32) {
        self.record(b'B', 0, block, &[]);
        self.record(b'd', 0, tick, &[]);
    }

    /// The popularity of a block.
    pub fn popularity(&mut self, block: u32) {
        self.record(b'B', 0, block, &[]);
        self.record(b'o', 0, 0, &[]);
    }

    /// A run with a step budget.
    pub fn run(&mut self, budget: u32) {
        self.record(b'u', 0, budget, &[]);
    }

    /// The calls that have no number of their own, one for each letter: p, f, k, r, s, and E.
    pub fn calls(&mut self, letters: &str) {
        for letter in letters.bytes() {
            assert!(b"pfkrsE".contains(&letter));
            self.record(letter, 0, 0, &[]);
        }
    }
}

/// The trials program's memory.
struct Memory {
    plan: Vec<u8>,
    words: Vec<u64>,
    lent: usize,
    list: Vec<Entry>,
    records_lent: usize,
    count: u64,
    block: u32,
}

/// An answer in words, or `refused` and its number.
fn answer<T>(result: Result<T, u8>, text: impl Fn(T) -> String) -> String {
    match result {
        Ok(value) => text(value),
        Err(row) => format!("refused {row}"),
    }
}

/// The numbers of a report.
fn report_text(r: Report) -> String {
    format!("{} {} {} {}", r.maximum, r.minimum, r.sum, r.largest_share)
}

/// The words for one step, or for none.
fn step_text(step: Option<Step>) -> String {
    let Some(s) = step else {
        return "rest".to_string();
    };
    let name = match s.kind {
        Kind::Move => "Move",
        Kind::Swap => "Swap",
        Kind::RackMove => "RackMove",
        Kind::RackSwap => "RackSwap",
    };
    let partner = s.j.map_or(String::new(), |j| format!(" {j}"));
    format!("{name} {} {} {}{partner}", s.m, s.n, s.i)
}

/// The words for a run's end.
fn run_text((end, taken): (End, u32)) -> String {
    match end {
        End::Rest => format!("rest {taken}"),
        End::Spent => format!("spent {taken}"),
    }
}

impl Memory {
    /// The digest of all words, low byte of each first.
    fn digest(&self) -> String {
        digest(self.words.iter().flat_map(|w| w.to_le_bytes()))
    }

    /// The digest of all records of the list, each as a word.
    fn list_digest(&self) -> String {
        digest(self.list.iter().flat_map(|e| word_of(e).to_le_bytes()))
    }

    /// The line for judging the plan.
    fn plan_line(&self) -> String {
        let said = answer(enter_plan(&self.plan), |p| {
            let number = p.blocks.len();
            format!(
                "{} {} {} {} {number}",
                p.racks, p.per_rack, p.capacity, p.budget
            )
        });
        format!("plan {said}\n")
    }

    /// The line for the counts into a buffer of so many bytes.
    fn counts_line(&self, number: usize) -> String {
        let mut buffer = vec![UNTOUCHED; number];
        let said = answer(enter_counts(&self.plan, &mut buffer), |f| f.to_string());
        format!("counts {said} {}\n", digest(buffer.into_iter()))
    }

    /// The line for the plan as version 3 into a buffer of so many bytes.
    fn convert_line(&self, number: usize) -> String {
        let mut buffer = vec![UNTOUCHED; number];
        let said = answer(enter_convert(&self.plan, &mut buffer), |n| n.to_string());
        format!("convert {said} {}\n", digest(buffer.into_iter()))
    }

    /// What a call on the lent words answers: its name, and what it says.
    fn call(&mut self, op: u8, budget: u32) -> (&'static str, String) {
        let lent = &mut self.words[..self.lent];
        let plan = &self.plan;
        match op {
            b'f' => ("first", answer(enter_first(plan, lent), |b| b.to_string())),
            b'k' => ("check", answer(enter_check(plan, lent), |b| b.to_string())),
            b'r' => ("report", answer(enter_report(plan, lent), report_text)),
            b's' => ("step", answer(enter_step(plan, lent), step_text)),
            _ => ("run", answer(enter_run(plan, lent, budget), run_text)),
        }
    }

    /// The line for a call on the lent words.
    fn words_line(&mut self, op: u8, budget: u32) -> String {
        let (name, said) = self.call(op, budget);
        format!("{name} {said} {}\n", self.digest())
    }

    /// The line for a read of the current block. The count that it answers is handed in from now on.
    fn read_line(&mut self, tick: u32) -> String {
        let lent = &mut self.list[..self.records_lent];
        let answered = enter_read(&self.plan, self.block, tick, lent, self.count);
        self.count = answered.unwrap_or(self.count);
        let said = answer(answered, |n| n.to_string());
        format!("read {said} {}\n", self.list_digest())
    }

    /// The line for the popularity of the current block.
    fn popularity_line(&self) -> String {
        let lent = &self.list[..self.records_lent];
        let answered = enter_popularity(&self.plan, self.block, lent, self.count);
        let said = answer(answered, |n| n.to_string());
        format!("popularity {said} {}\n", self.list_digest())
    }
}

/// One record of a stream.
pub struct Record<'a> {
    pub op: u8,
    pub length: usize,
    pub number: u32,
    pub payload: &'a [u8],
}

/// Takes the next record off the stream.
pub fn next_record<'a>(stream: &mut &'a [u8]) -> Record<'a> {
    let (head, behind) = stream.split_at(8);
    let length = usize::from(u16::from_be_bytes([head[2], head[3]]));
    let size = match head[0] {
        b'T' | b'P' => length,
        b'W' | b'R' => length * 8,
        _ => 0,
    };
    let (payload, behind) = behind.split_at(size);
    *stream = behind;
    Record {
        op: head[0],
        length,
        number: u32::from_be_bytes([head[4], head[5], head[6], head[7]]),
        payload,
    }
}

/// The payload's words.
fn words_in<'a>(record: &'a Record) -> impl Iterator<Item = u64> + 'a {
    let word = |eight: &[u8]| eight.iter().fold(0, |w, b| w << 8 | u64::from(*b));
    record.payload.chunks(8).map(word)
}

/// Puts the payload's words in place; they are lent from now on.
fn take_words(memory: &mut Memory, record: &Record) {
    for (i, word) in words_in(record).enumerate() {
        memory.words[i] = word;
    }
    memory.lent = record.length;
}

/// Puts the payload's records of the list in place.
fn take_records(memory: &mut Memory, record: &Record) {
    let at = record.number as usize;
    for (i, word) in words_in(record).enumerate() {
        memory.list[at + i] = entry_of(word);
    }
}

/// Does one record; answers what it prints.
fn obey(memory: &mut Memory, record: &Record) -> String {
    match record.op {
        b'T' => return format!("# {}\n", String::from_utf8_lossy(record.payload)),
        b'p' => return memory.plan_line(),
        b'c' => return memory.counts_line(record.length),
        b'v' => return memory.convert_line(record.length),
        b'd' => return memory.read_line(record.number),
        b'o' => return memory.popularity_line(),
        b'E' => return "end\n".to_string(),
        b'P' => memory.plan = record.payload.to_vec(),
        b'W' => take_words(memory, record),
        b'L' => memory.lent = record.length,
        b'R' => take_records(memory, record),
        b'M' => memory.records_lent = record.length,
        b'N' => memory.count = (record.length as u64) << 32 | u64::from(record.number),
        b'B' => memory.block = record.number,
        op => return memory.words_line(op, record.number),
    }
    String::new()
}

/// Plays a stream to its end, and hands on what each record prints.
pub fn play(mut stream: &[u8], mut print: impl FnMut(&str)) {
    let mut memory = Memory {
        plan: Vec::new(),
        words: vec![0; WORDS],
        lent: 0,
        list: vec![Entry::default(); RECORDS],
        records_lent: 0,
        count: 0,
        block: 0,
    };
    loop {
        let record = next_record(&mut stream);
        print(&obey(&mut memory, &record));
        if record.op == b'E' {
            return;
        }
    }
}

/// What the trials program has to print for a stream.
pub fn replay(stream: &[u8]) -> String {
    let mut output = String::new();
    play(stream, |text| output += text);
    output
}
