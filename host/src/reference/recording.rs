//! Recordings: frames one after another, each run dry from time 0 over one plan, and counted.

use super::bits::get;
use super::image::accept;
use super::limits::{plan, Policy};
use super::run::dry_run;
use crate::calls::{refused, Answer, Dried, Line, Opened, Tables, Totals, MOST_ACTIONS, MOST_FRAMES};

/// The bits of one duration.
const DURATION: usize = 32;

/// The durations that bytes say, high byte first; what is left over at the end says none.
fn durations(bytes: &[u8]) -> Vec<u32> {
    (0..bytes.len() * 8 / DURATION).map(|k| get(bytes, k * DURATION, DURATION) as u32).collect()
}

/// Plans an image for a recording, of which the length alone is judged.
pub fn open_recording(
    image: &[u8],
    policy: u32,
    bytes: usize,
    order: &mut [u8],
    limits: &mut [i32],
    worst: &mut [u32],
    bounds: &mut [i32],
) -> Answer<Opened> {
    let profile = accept(image)?;
    Policy::of(policy)?;
    let (n, levels) = (profile.n, profile.levels);
    let frame_bytes = n * levels * DURATION / 8;
    let frames = bytes / frame_bytes;
    if frames * frame_bytes != bytes || frames > MOST_FRAMES {
        return Err(refused::TRACE);
    }
    plan(image, policy, order, limits, worst, bounds)?;
    Ok(Opened { n, levels, frame_bytes, frames })
}

/// The names of the totals that are outside their range.
pub fn totals_out(totals: Totals) -> Vec<&'static str> {
    let [frames, decisions, overruns, lates] =
        [totals.frames, totals.decisions, totals.overruns, totals.lates].map(i64::from);
    let tests = [
        ("frames", frames > MOST_FRAMES as i64),
        ("decisions", decisions > MOST_ACTIONS as i64 * frames),
        ("overruns", overruns > frames),
        ("lates", lates > frames),
    ];
    tests.into_iter().filter(|(_, out)| *out).map(|(name, _)| name).collect()
}

/// The line of a frame, from the dry run over its durations: 3, 17 and 16 are that run's own.
fn line(n: usize, levels: usize, tables: Tables, frame: &[u8]) -> Answer<Line> {
    let (mut given, mut marks) = ([0; MOST_ACTIONS], [0; MOST_ACTIONS]);
    let cycle = dry_run(n, levels, tables, &durations(frame), &mut given, &mut marks)?;
    let lowest = given[..n].iter().min().expect("one action or more");
    let Dried { decisions, end, overrun, late } = cycle;
    Ok(Line { decisions, lowest: u32::from(*lowest), end, overrun, late })
}

/// A frame run dry and counted: once as overrun and once as late, however many of its actions were.
pub fn rehearse(totals: &mut Totals, n: usize, levels: usize, tables: Tables, frame: &[u8]) -> Answer<Line> {
    if !totals_out(*totals).is_empty() {
        return Err(refused::TURN);
    }
    if totals.frames as usize + 1 > MOST_FRAMES {
        return Err(refused::TRACE);
    }
    let line = line(n, levels, tables, frame)?;
    totals.frames += 1;
    totals.decisions += line.decisions;
    totals.overruns += u32::from(line.overrun);
    totals.lates += u32::from(line.late);
    Ok(line)
}
