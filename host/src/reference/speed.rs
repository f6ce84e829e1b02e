//! The speed reading.

use super::image::accept;
use super::limits::Planned;
use crate::calls::{refused, Reading, LAST_CLOCK};

/// average(i,k,q) over what is left of deadline(k) after the margin and the time.
pub fn speed_reading(image: &[u8], first: usize, last: usize, level: usize, t: u32) -> Reading {
    let profile = match accept(image) {
        Ok(profile) => profile,
        Err(refused) => return Reading::Refused(refused),
    };
    let (i, k, q) = (first, last, level);
    if i > k || i >= profile.n || k >= profile.n || q >= profile.levels {
        return Reading::Refused(refused::READING);
    }
    if t > LAST_CLOCK {
        return Reading::Refused(refused::CLOCK);
    }
    let planned = Planned::of(&profile);
    let room = planned.deadline[k] - planned.margin(i, k, q) - i64::from(t);
    if room > 0 {
        Reading::Ratio(planned.average(i, k, q) as f64 / room as f64)
    } else {
        Reading::Spent
    }
}

/// t is at most deadline(k) - mixed(i,k,q), in whole numbers, and time is left.
pub fn on_time(image: &[u8], first: usize, last: usize, level: usize, t: u32) -> bool {
    match speed_reading(image, first, last, level, t) {
        Reading::Refused(_) | Reading::Spent => false,
        Reading::Ratio(_) => {
            let planned = Planned::of(&accept(image).expect("it is not refused"));
            let (i, k, q) = (first, last, level);
            i64::from(t) <= planned.deadline[k] - planned.mixed(i, k, q)
        }
    }
}
