//! Recordings: the image planned once, and each frame run where it lies.

use super::image::examine;
use super::plan::{apart, fill};
use super::run::{decide, shape_fits};
use crate::calls::{
    refused, Answer, Line, Opened, Tables, Totals, LONGEST_COAST, LONGEST_TIME, MOST_ACTIONS, MOST_FRAMES,
};

/// Plans an image for a recording of so many bytes.
pub fn open_recording(
    image: &[u8],
    policy: u32,
    bytes: usize,
    order: &mut [u8],
    limits: &mut [i32],
    worst: &mut [u32],
    bounds: &mut [i32],
) -> Answer<Opened> {
    let (shape, arranged) = examine(image)?;
    let apart = apart(policy)?;
    let frame_bytes = 4 * shape.cells();
    let (frames, rest) = (bytes / frame_bytes, bytes % frame_bytes);
    if rest != 0 || frames > MOST_FRAMES {
        return Err(refused::TRACE);
    }
    fill(image, shape, apart, &arranged, order, limits, worst, bounds)?;
    Ok(Opened { n: shape.n, levels: shape.levels, frame_bytes, frames })
}

/// The product stays within 32 bits where the frames are within their range.
fn in_range(totals: &Totals) -> bool {
    totals.frames <= MOST_FRAMES as u32
        && totals.decisions <= MOST_ACTIONS as u32 * totals.frames
        && totals.overruns <= totals.frames
        && totals.lates <= totals.frames
}

/// Four bytes as they lie.
fn word(bytes: &[u8]) -> u32 {
    u32::from_ne_bytes(bytes.try_into().expect("four bytes"))
}

/// All entries joined as they lie, sixteen at once in sets that do not wait for each other. Apart, so that it is not seen that the high bytes alone
/// are asked for: they would be picked out of the words one by one.
#[inline(never)]
fn joined(frame: &[u8]) -> u32 {
    let blocks = frame.chunks_exact(64);
    let rest = blocks.remainder().chunks_exact(4).fold(0, |all, bytes| all | word(bytes));
    let mut sets = [0; 16];
    for block in blocks {
        for (set, bytes) in sets.iter_mut().zip(block.chunks_exact(4)) {
            *set |= word(bytes);
        }
    }
    sets.iter().fold(rest, |all, set| all | set)
}

/// The dry run of a frame whose entries are not too long. A level is given at a decision and kept by its coast, so the lowest of the decisions is
/// the lowest of all.
fn run(n: usize, levels: usize, tables: Tables, frame: &[u8]) -> Line {
    let Tables { limits, worst_by_position: worst, bounds } = tables;
    let limits = &limits[..n * levels];
    let mut line = Line { lowest: u32::MAX, ..Line::default() };
    let mut i = 0;
    while i < n {
        let row = i * levels;
        let decision = decide(levels, &limits[row..], &bounds[row * LONGEST_COAST..], line.end);
        line.decisions += 1;
        line.late |= decision.late;
        line.lowest = line.lowest.min(decision.level as u32);
        let last = i + decision.grant as usize;
        // An overrun cancels the rest of the coast.
        let mut overran = false;
        while i < last && !overran {
            let cell = i * levels + decision.level;
            let duration = u32::from_be(word(&frame[4 * cell..4 * cell + 4]));
            line.end += duration;
            overran = duration > worst[cell];
            i += 1;
        }
        line.overrun |= overran;
    }
    line
}

/// A frame run dry, and counted in the totals.
pub fn rehearse(totals: &mut Totals, n: usize, levels: usize, tables: Tables, frame: &[u8]) -> Answer<Line> {
    if !in_range(totals) {
        return Err(refused::TURN);
    }
    if totals.frames == MOST_FRAMES as u32 {
        return Err(refused::TRACE);
    }
    if !shape_fits(n, levels) {
        return Err(refused::COUNT);
    }
    let cells = n * levels;
    let Tables { limits, worst_by_position: worst, bounds } = tables;
    let tables_short = limits.len() < cells || worst.len() < cells || bounds.len() < cells * LONGEST_COAST;
    if tables_short || frame.len() < 4 * cells {
        return Err(refused::ROOM);
    }
    let frame = &frame[..4 * cells];
    if u32::from_be(joined(frame)) > LONGEST_TIME {
        return Err(refused::DURATION);
    }
    let line = run(n, levels, tables, frame);
    totals.frames += 1;
    totals.decisions += line.decisions;
    totals.overruns += u32::from(line.overrun);
    totals.lates += u32::from(line.late);
    Ok(line)
}
