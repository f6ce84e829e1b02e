//! The speed reading.

use super::image::{deadline_word, examine, Pair};
use super::order::Arranged;
use crate::calls::{refused, Reading, LAST_CLOCK};

/// One pass from the last position back to the first.
pub fn speed_reading(image: &[u8], first: usize, last: usize, level: usize, t: u32) -> Reading {
    let (shape, Arranged(order)) = match examine(image) {
        Ok(accepted) => accepted,
        Err(refused) => return Reading::Refused(refused),
    };
    let (i, k, q) = (first, last, level);
    if i > k || k >= shape.n || q >= shape.levels {
        return Reading::Refused(refused::READING);
    }
    if t > LAST_CLOCK {
        return Reading::Refused(refused::CLOCK);
    }
    // Sums over j to k of the averages, over j+1 to k of the worst times at level 0.
    let (mut average, mut tail, mut margin) = (0i32, 0i32, i32::MIN);
    for &action in order[i..=k].iter().rev() {
        let record = shape.record(image, action as usize);
        let pair = Pair::of(record, q);
        average += pair.average() as i32;
        margin = margin.max(pair.worst() as i32 + tail - average);
        tail += Pair::of(record, 0).worst() as i32;
    }
    let deadline = shape.deadline(deadline_word(shape.record(image, order[k] as usize)) >> 2);
    let room = i64::from(deadline) - i64::from(margin) - i64::from(t);
    if room > 0 {
        Reading::Ratio(f64::from(average) / room as f64)
    } else {
        Reading::Spent
    }
}
