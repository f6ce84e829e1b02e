//! New averages from a trace.

use super::bits::get;
use super::image::{accept, put_average};
use crate::calls::{refused, Answer, MOST_RECORDS};

/// One record of a trace.
struct Record {
    open: bool,
    action: usize,
    level: usize,
    duration: i64,
}

fn record(trace: &[u8], at: usize) -> Record {
    let start = at * 40;
    Record {
        open: get(trace, start, 1) == 1,
        action: get(trace, start + 1, 6) as usize,
        level: get(trace, start + 7, 3) as usize,
        duration: get(trace, start + 10, 30) as i64,
    }
}

/// The average of the measurements there, rounded down; the old one if there is none. A record is one if it is open and of a duration above 0: one of
/// duration 0 is of an action that was skipped.
fn measured(records: &[Record], action: usize, level: usize, old: i64) -> i64 {
    let counted =
        |record: &&Record| record.open && record.duration > 0 && record.action == action && record.level == level;
    let durations: Vec<i64> = records.iter().filter(counted).map(|record| record.duration).collect();
    match durations.len() {
        0 => old,
        count => durations.iter().sum::<i64>() / count as i64,
    }
}

/// The image with its new averages; answers its bytes.
pub fn refresh(image: &[u8], trace: &[u8], fresh: &mut [u8]) -> Answer<usize> {
    let profile = accept(image)?;
    if !trace.len().is_multiple_of(5) || trace.len() / 5 > MOST_RECORDS {
        return Err(refused::TRACE);
    }
    let records: Vec<Record> = (0..trace.len() / 5).map(|at| record(trace, at)).collect();
    for record in &records {
        if record.action >= profile.n || record.level >= profile.levels {
            return Err(refused::NAME);
        }
        if record.duration > profile.worst[record.action][record.level] {
            return Err(refused::DURATION);
        }
    }
    if fresh.len() < image.len() {
        return Err(refused::ROOM);
    }
    fresh[..image.len()].copy_from_slice(image);
    for action in 0..profile.n {
        let mut averages: Vec<i64> = (0..profile.levels)
            .map(|level| measured(&records, action, level, profile.averages[action][level]))
            .collect();
        for level in 1..profile.levels {
            if averages[level] < averages[level - 1] {
                averages[level] = averages[level - 1];
            }
        }
        for (level, &average) in averages.iter().enumerate() {
            put_average(fresh, profile.levels, action, level, average);
        }
    }
    Ok(image.len())
}
