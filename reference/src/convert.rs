//! The converter: it writes any accepted plan of version 1 or 2 as version 3. A refused call writes nothing, and bytes
//! past the result stay.

use crate::plan::{read_of, Block, Plan, Refusal};

/// The bytes of the largest plan that it writes, 1,024 blocks in version 3.
pub const LARGEST_PLAN: usize = 15 + 7 * 1024;

/// The bytes of a record of version 3: popularity (4 bytes), least copies, spread, pair byte.
fn record(block: &Block) -> [u8; 7] {
    let mut record = [0; 7];
    record[..4].copy_from_slice(&(block.popularity as u32).to_be_bytes());
    record[4..].copy_from_slice(&[block.least as u8, block.spread as u8, block.pair]);
    record
}

/// The plan file of version 3 with these fields.
fn version_3(plan: &Plan) -> Vec<u8> {
    let mut bytes = vec![0x42, 0x50, 0x4C, 0, 3];
    bytes.extend([plan.racks as u8, plan.per_rack as u8]);
    bytes.extend((plan.capacity as u16).to_be_bytes());
    bytes.extend((plan.budget as u32).to_be_bytes());
    bytes.extend((plan.blocks.len() as u16).to_be_bytes());
    bytes.extend(plan.blocks.iter().flat_map(record));
    bytes
}

/// The plan as version 3 into the lent bytes; answers its length. Versions other than 1 and 2 are refused 3, at that
/// row's place in the order; a buffer too short is refused 12, after 11.
pub fn enter_convert(bytes: &[u8], buffer: &mut [u8]) -> Result<usize, Refusal> {
    let plan = read_of(bytes, &[1, 2])?;
    let result = version_3(&plan);
    let length = result.len();
    if buffer.len() < length {
        return Err(12);
    }
    buffer[..length].copy_from_slice(&result);
    Ok(length)
}

/// The plan as version 3, with a buffer that is long enough for any.
pub fn converted(bytes: &[u8]) -> Result<Vec<u8>, Refusal> {
    let mut buffer = vec![0; LARGEST_PLAN];
    let length = enter_convert(bytes, &mut buffer)?;
    buffer.truncate(length);
    Ok(buffer)
}
