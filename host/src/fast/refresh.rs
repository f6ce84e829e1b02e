//! New averages from a trace.

use super::image::{examine, Pair};
use crate::calls::{refused, Answer, MOST_RECORDS};

/// Bits of a packed sum below its count: 65,535 durations of 24 bits need 40.
const SUM: u32 = 40;

/// The image with its new averages; answers its bytes.
pub fn refresh(image: &[u8], trace: &[u8], fresh: &mut [u8]) -> Answer<usize> {
    let (shape, _) = examine(image)?;
    if !trace.len().is_multiple_of(5) || trace.len() / 5 > MOST_RECORDS {
        return Err(refused::TRACE);
    }
    // By action and level as a record packs them: the first duration that is too long, 0 where absent.
    let mut ceilings = [0u32; 512];
    for (record, row) in image[6..].chunks_exact(shape.stride).zip(ceilings.chunks_exact_mut(8)) {
        for (level, ceiling) in row[..shape.levels].iter_mut().enumerate() {
            *ceiling = Pair::of(record, level).worst() + 1;
        }
    }
    let mut sums = [0u64; 512];
    for record in trace.chunks_exact(5) {
        let low = u32::from_be_bytes([record[1], record[2], record[3], record[4]]);
        let key = usize::from(record[0] & 127) << 2 | (low >> 30) as usize;
        let duration = low & 0x3fff_ffff;
        if duration >= ceilings[key] {
            return Err(if ceilings[key] == 0 { refused::NAME } else { refused::DURATION });
        }
        // A closed record measures 0, as one of a skipped action does, and 0 is not counted.
        let measured = duration & u32::from(record[0] >> 7).wrapping_neg();
        sums[key] += u64::from(measured != 0) << SUM | u64::from(measured);
    }
    if fresh.len() < image.len() {
        return Err(refused::ROOM);
    }
    let fresh = &mut fresh[..image.len()];
    fresh.copy_from_slice(image);
    for (record, sums) in fresh[6..].chunks_exact_mut(shape.stride).zip(sums.chunks_exact(8)) {
        let mut before = 0;
        for (cell, &packed) in record[12..].chunks_exact_mut(6).zip(sums) {
            let (count, sum) = (packed >> SUM, packed & ((1 << SUM) - 1));
            let old = u32::from_be_bytes([0, cell[0], cell[1], cell[2]]);
            let average = sum.checked_div(count).map_or(old, |average| average as u32);
            before = average.max(before);
            cell[..3].copy_from_slice(&before.to_be_bytes()[1..]);
        }
    }
    Ok(image.len())
}
