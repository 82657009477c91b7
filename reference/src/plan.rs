//! The plan file, and why a plan is turned back (refusals 1 to 11, 17, 22 and 23).

/// The number of a row in the table of refusals.
pub type Refusal = u8;

/// One record: popularity P, least copies, spread, and the pair byte, which is 0 in version 1.
#[derive(Clone, Debug, PartialEq, Eq)]
pub struct Block {
    pub popularity: u64,
    pub least: usize,
    pub spread: usize,
    pub pair: u8,
}

/// An accepted plan file. Before version 4 there is a feed for each rack.
#[derive(Clone, Debug, PartialEq, Eq)]
pub struct Plan {
    pub version: u64,
    pub racks: usize,
    pub per_rack: usize,
    pub feeds: usize,
    pub capacity: usize,
    pub budget: u64,
    pub blocks: Vec<Block>,
}

impl Plan {
    /// M = R × S.
    pub fn machines(&self) -> usize {
        self.racks * self.per_rack
    }

    /// Machine m is in rack m div S.
    pub fn rack_of(&self, machine: usize) -> usize {
        machine / self.per_rack
    }

    /// Rack r hangs on feed r mod F, and its machines with it.
    pub fn feed_of(&self, machine: usize) -> usize {
        self.rack_of(machine) % self.feeds
    }

    /// The byte of block i is 1: it is paired with the next one.
    fn begins_pair(&self, i: usize) -> bool {
        self.blocks[i].pair == 1
    }

    /// The byte of the preceding block is 1.
    fn ends_pair(&self, i: usize) -> bool {
        i > 0 && self.begins_pair(i - 1)
    }

    /// A block is paired if its byte is 1 or the preceding block's is.
    pub fn paired(&self, i: usize) -> bool {
        self.begins_pair(i) || self.ends_pair(i)
    }

    /// The other block of block i's pair, if it has one. For plans past row 17.
    pub fn partner(&self, i: usize) -> Option<usize> {
        if self.begins_pair(i) {
            Some(i + 1)
        } else {
            self.ends_pair(i).then(|| i - 1)
        }
    }

    /// The pairs, each block whose byte is 1 with the next one. For plans past row 17.
    pub fn pairs(&self) -> impl Iterator<Item = (usize, usize)> + '_ {
        let first = (0..self.blocks.len()).filter(|i| self.begins_pair(*i));
        first.map(|i| (i, i + 1))
    }

    /// The upper count of a block: the smaller of the most copies and M, for a paired one of the most copies and half of
    /// M rounded down.
    pub fn upper(&self, i: usize) -> usize {
        let machines = self.machines();
        let most = if self.paired(i) {
            machines / 2
        } else {
            machines
        };
        most.min(most_copies(self.version))
    }

    /// M × C: the copies that the machines can hold.
    pub fn places(&self) -> u64 {
        self.machines() as u64 * self.capacity as u64
    }

    /// The most copies of all blocks together: the smaller of budget and M × C. Version 4 has no larger budget.
    pub fn limit(&self) -> u64 {
        self.budget.min(self.places())
    }

    /// The sum of least copies.
    pub fn least_sum(&self) -> u64 {
        self.blocks.iter().map(|b| b.least as u64).sum()
    }
}

/// The unsigned field in bytes `first` to `last`, high byte first.
fn field(bytes: &[u8], first: usize, last: usize) -> u64 {
    bytes[first..=last]
        .iter()
        .fold(0, |value, byte| value * 256 + u64::from(*byte))
}

/// The bytes before the records: in version 4 there is one more.
fn header_length(version: u64) -> usize {
    match version {
        1..=3 => 15,
        _ => 16,
    }
}

/// F, which is byte 7 of version 4. Before it every rack has a feed of its own.
fn feeds_in(bytes: &[u8], version: u64, racks: usize) -> usize {
    match version {
        1..=3 => racks,
        _ => field(bytes, 7, 7) as usize,
    }
}

/// The bytes of a record: in version 2 there is a sixth, and from version 3 on the popularity has one more.
fn record_length(version: u64) -> usize {
    match version {
        1 => 5,
        2 => 6,
        _ => 7,
    }
}

/// The most copies of a block, where there are machines enough: 8, from version 3 on 10.
pub fn most_copies(version: u64) -> usize {
    match version {
        1 | 2 => 8,
        _ => 10,
    }
}

/// The record of block `i`. The popularity has 3 bytes, from version 3 on it has 4.
fn record(bytes: &[u8], version: u64, i: usize) -> Block {
    let at = header_length(version) + record_length(version) * i;
    let behind = at + if version >= 3 { 4 } else { 3 };
    Block {
        popularity: field(bytes, at, behind - 1),
        least: bytes[behind] as usize,
        spread: bytes[behind + 1] as usize,
        pair: if version == 1 { 0 } else { bytes[behind + 2] },
    }
}

/// Refuses with `row` if its condition holds.
pub(crate) fn refuse_if(condition: bool, row: Refusal) -> Result<(), Refusal> {
    if condition {
        Err(row)
    } else {
        Ok(())
    }
}

/// Rows 1 to 7, with 22 after 4, and the plan with its records not yet judged. Row 3 refuses all but these versions. In
/// version 4 the fields behind F stand one byte later; a file that ends within the last one passes 6 and gets 7.
fn read_header(bytes: &[u8], versions: &[u64]) -> Result<Plan, Refusal> {
    refuse_if(bytes.len() < 15, 1)?;
    refuse_if(bytes[0..3] != [0x42, 0x50, 0x4C], 2)?;
    let version = field(bytes, 3, 4);
    refuse_if(!versions.contains(&version), 3)?;
    let racks = field(bytes, 5, 5) as usize;
    let per_rack = field(bytes, 6, 6) as usize;
    refuse_if(racks == 0 || per_rack == 0 || racks * per_rack > 64, 4)?;
    let header = header_length(version);
    let later = header - 15;
    let feeds = feeds_in(bytes, version, racks);
    refuse_if(feeds == 0 || !racks.is_multiple_of(feeds), 22)?;
    let capacity = field(bytes, 7 + later, 8 + later) as usize;
    refuse_if(capacity == 0 || capacity > 1024, 5)?;
    refuse_if(bytes.len() < header, 7)?;
    let number = field(bytes, 13 + later, 14 + later) as usize;
    refuse_if(number > 1024, 6)?;
    refuse_if(bytes.len() != header + record_length(version) * number, 7)?;
    Ok(Plan {
        version,
        racks,
        per_rack,
        feeds,
        capacity,
        budget: field(bytes, 9 + later, 12 + later),
        blocks: (0..number).map(|i| record(bytes, version, i)).collect(),
    })
}

/// Rows 8 and 9 of one block, 8 first. A spread is over feeds.
fn judge_block(plan: &Plan, i: usize) -> Result<(), Refusal> {
    let block = &plan.blocks[i];
    refuse_if(block.least == 0 || block.least > plan.upper(i), 8)?;
    let spread = block.spread;
    refuse_if(
        spread == 0 || spread > block.least || spread > plan.feeds,
        9,
    )
}

/// Two blocks have the same popularity, least copies and spread.
fn alike(a: &Block, b: &Block) -> bool {
    a.popularity == b.popularity && a.least == b.least && a.spread == b.spread
}

/// Row 17: a byte is neither 0 nor 1, or the last block has 1, or two successive blocks have 1, or a pair differs.
fn mispaired(plan: &Plan) -> bool {
    let blocks = &plan.blocks;
    let neither = blocks.iter().any(|b| b.pair > 1);
    let last = blocks.last().is_some_and(|b| b.pair == 1);
    let mut marked = blocks.windows(2).filter(|two| two[0].pair == 1);
    let second_wrong = |two: &[Block]| two[1].pair == 1 || !alike(&two[0], &two[1]);
    neither || last || marked.any(second_wrong)
}

/// Reads a plan of any version described: the first row that turns it back, or the plan.
pub fn read(bytes: &[u8]) -> Result<Plan, Refusal> {
    read_of(bytes, &[1, 2, 3, 4])
}

/// Reads a plan of one of these versions; all others are refused 3. After rows 8 and 9 of all blocks come 17, 23, 10 and
/// 11. Row 23 is for version 4 alone, and leaves 11 none of its plans.
pub fn read_of(bytes: &[u8], versions: &[u64]) -> Result<Plan, Refusal> {
    let plan = read_header(bytes, versions)?;
    for i in 0..plan.blocks.len() {
        judge_block(&plan, i)?;
    }
    refuse_if(mispaired(&plan), 17)?;
    let places = plan.places();
    refuse_if(plan.version == 4 && plan.budget > places, 23)?;
    refuse_if(plan.least_sum() > plan.budget, 10)?;
    refuse_if(plan.least_sum() > places, 11)?;
    Ok(plan)
}
