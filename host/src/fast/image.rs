//! Image check, reading, writing, lookup.

use super::order::{arrange, Actions, Arranged};
use crate::calls::{refused, Answer, Counts, Refused, LAST_CLOCK, LONGEST_TIME};

/// The sizes of an image whose length is right.
#[derive(Clone, Copy)]
pub(super) struct Shape {
    pub n: usize,
    pub levels: usize,
    pub cycle: u32,
    /// Bytes of one record.
    pub stride: usize,
}

impl Shape {
    fn new(counts: Counts) -> Option<Shape> {
        let Counts { n, levels, cycle } = counts;
        let fits = n.wrapping_sub(1) < 64 && levels.wrapping_sub(1) < 8 && cycle.wrapping_sub(1) < LAST_CLOCK;
        fits.then_some(Shape { n, levels, cycle, stride: 12 + 6 * levels })
    }

    pub fn bytes(self) -> usize {
        6 + self.n * self.stride
    }

    pub fn cells(self) -> usize {
        self.n * self.levels
    }

    pub fn counts(self) -> Counts {
        Counts { n: self.n, levels: self.levels, cycle: self.cycle }
    }

    /// The set of all actions.
    fn present(self) -> u64 {
        u64::MAX >> (64 - self.n)
    }

    pub fn record(self, image: &[u8], action: usize) -> &[u8] {
        &image[6 + action * self.stride..][..self.stride]
    }

    /// The deadline that counts.
    pub fn deadline(self, written: u32) -> u32 {
        if written == 0 {
            self.cycle
        } else {
            written
        }
    }
}

fn word64(bytes: &[u8], at: usize) -> u64 {
    u64::from_be_bytes(bytes[at..at + 8].try_into().expect("eight bytes"))
}

/// Deadline and the two spare bits.
pub(super) fn deadline_word(record: &[u8]) -> u32 {
    u32::from_be_bytes(record[8..12].try_into().expect("four bytes"))
}

/// The highest bit of each half of a word.
const GUARD: u64 = 1 << 63 | 1 << 31;

/// An average and a worst time in the halves of a word, so that both are compared by one subtraction.
#[derive(Clone, Copy, Default)]
pub(super) struct Pair(u64);

impl Pair {
    fn new(average: u32, worst: u32) -> Pair {
        Pair(u64::from(average) << 32 | u64::from(worst))
    }

    /// The pair of a record at a level: the last six of eight bytes.
    pub fn of(record: &[u8], level: usize) -> Pair {
        let word = word64(record, 10 + 6 * level);
        Pair((word & 0xffff_ff00_0000) << 8 | word & 0xff_ffff)
    }

    pub fn average(self) -> u32 {
        (self.0 >> 32) as u32
    }

    pub fn worst(self) -> u32 {
        self.0 as u32
    }

    /// A guard bit is lost where a time is below that of the level before, or the worst time below the average.
    fn kept(self, before: Pair) -> u64 {
        let guarded = self.0 | GUARD;
        guarded.wrapping_sub(before.0) & guarded.wrapping_sub(self.0 >> 32)
    }
}

/// What a pass over all records gathers, or over one.
struct Faults {
    spare: u32,
    range: bool,
    /// All times of a writing joined; those of an image fit their fields.
    times: u32,
    /// Loses a guard bit where the table rule is broken.
    kept: u64,
}

impl Faults {
    fn none() -> Faults {
        Faults { spare: 0, range: false, times: 0, kept: GUARD }
    }

    /// Joins those of an action's mask and deadline.
    #[inline(always)]
    fn add_head(&mut self, shape: Shape, mask: u64, deadline: u32) {
        self.range |= (mask & !shape.present() != 0) | (deadline > shape.cycle);
    }

    /// Joins those of a record.
    #[inline(always)]
    fn add_record(&mut self, shape: Shape, record: &[u8]) {
        let word = deadline_word(record);
        self.spare |= word & 3;
        self.add_head(shape, word64(record, 0), word >> 2);
        let mut before = Pair::default();
        for level in 0..shape.levels {
            let pair = Pair::of(record, level);
            self.kept &= pair.kept(before);
            before = pair;
        }
    }

    /// Joins those of a row of each table to be written.
    #[inline(always)]
    fn add_rows(&mut self, shape: Shape, (mask, deadline, averages, worst): Rows) {
        self.add_head(shape, mask, deadline);
        let mut before = Pair::default();
        for (&average, &worst) in averages.iter().zip(worst) {
            self.times |= average | worst;
            let pair = Pair::new(average, worst);
            self.kept &= pair.kept(before);
            before = pair;
        }
    }

    /// The first of 5, 6, 7.
    #[inline(always)]
    fn first(&self) -> Answer<()> {
        if self.spare != 0 {
            Err(refused::SPARE)
        } else if self.range || self.times > LONGEST_TIME {
            Err(refused::RANGE)
        } else if self.kept & GUARD != GUARD {
            Err(refused::TABLE)
        } else {
            Ok(())
        }
    }
}

/// An action's mask, deadline, averages and worst times.
type Rows<'a> = (u64, u32, &'a [u32], &'a [u32]);

/// The first refusal of all actions with the lowest that has it: none before it has a lesser number, so it is the first of that action too.
#[cold]
fn at_fault(refused: Refused, n: usize, add: impl Fn(&mut Faults, usize)) -> Refused {
    let has = |&a: &usize| {
        let mut faults = Faults::none();
        add(&mut faults, a);
        faults.first() == Err(refused)
    };
    (0..n).find(has).map_or(refused, |a| refused.at(a))
}

/// Refusals 1 to 4.
fn shape(image: &[u8]) -> Answer<Shape> {
    if image.len() < 6 {
        return Err(refused::SHORT);
    }
    let head = u32::from_be_bytes([image[0], image[1], image[2], image[3]]);
    let tail = u16::from_be_bytes([image[4], image[5]]);
    if head >> 28 != 1 {
        return Err(refused::VERSION);
    }
    let cycle = (head & 0x1_ffff) << 13 | u32::from(tail >> 3);
    let shape = Shape::new(Counts { n: (head >> 21 & 127) as usize, levels: (head >> 17 & 15) as usize, cycle })
        .ok_or(refused::COUNT)?;
    if image.len() != shape.bytes() {
        return Err(refused::LENGTH);
    }
    Ok(shape)
}

/// Refusals 1 to 9; the shape and the order of an accepted image.
pub(super) fn examine(image: &[u8]) -> Answer<(Shape, Arranged)> {
    let (shape, actions) = gather(image)?;
    Ok((shape, arrange(&actions, shape.n)?))
}

/// Refusals 1 to 7; the shape, and what the order reads.
#[inline(always)]
pub(super) fn gather(image: &[u8]) -> Answer<(Shape, Actions)> {
    let shape = shape(image)?;
    let mut faults = Faults::none();
    faults.spare = u32::from(image[5] & 7);
    let mut actions = Actions::default();
    for (a, record) in image[6..].chunks_exact(shape.stride).enumerate().take(64) {
        actions.masks[a] = word64(record, 0);
        actions.deadlines[a] = shape.deadline(deadline_word(record) >> 2);
        actions.worst[a] = Pair::of(record, 0).worst();
        faults.add_record(shape, record);
    }
    if let Err(refused) = faults.first() {
        return Err(at_fault(refused, shape.n, |faults, a| faults.add_record(shape, shape.record(image, a))));
    }
    Ok((shape, actions))
}

/// The image check.
pub fn check(image: &[u8]) -> Answer<Counts> {
    examine(image).map(|(shape, _)| shape.counts())
}

/// Unpacks an image into lent slices.
pub fn read(
    image: &[u8],
    masks: &mut [u64],
    deadlines: &mut [u32],
    averages: &mut [u32],
    worst: &mut [u32],
) -> Answer<Counts> {
    let (shape, _) = examine(image)?;
    let (n, levels, cells) = (shape.n, shape.levels, shape.cells());
    if masks.len() < n || deadlines.len() < n || averages.len() < cells || worst.len() < cells {
        return Err(refused::ROOM);
    }
    let heads = masks.iter_mut().zip(deadlines);
    let rows = averages.chunks_exact_mut(levels).zip(worst.chunks_exact_mut(levels));
    for ((record, (mask, deadline)), (averages, worst)) in image[6..].chunks_exact(shape.stride).zip(heads).zip(rows) {
        *mask = word64(record, 0);
        *deadline = deadline_word(record) >> 2;
        for (level, (average, worst)) in averages.iter_mut().zip(worst).enumerate() {
            let pair = Pair::of(record, level);
            (*average, *worst) = (pair.average(), pair.worst());
        }
    }
    Ok(shape.counts())
}

/// Packs lent slices into a lent image and answers its bytes.
pub fn write(
    counts: Counts,
    masks: &[u64],
    deadlines: &[u32],
    averages: &[u32],
    worst: &[u32],
    image: &mut [u8],
) -> Answer<usize> {
    let shape = Shape::new(counts).ok_or(refused::COUNT)?;
    let (n, levels, cells, bytes) = (shape.n, shape.levels, shape.cells(), shape.bytes());
    let times_short = averages.len() < cells || worst.len() < cells;
    if masks.len() < n || deadlines.len() < n || times_short || image.len() < bytes {
        return Err(refused::ROOM);
    }
    let (masks, deadlines) = (&masks[..n], &deadlines[..n]);
    let (averages, worst, image) = (&averages[..cells], &worst[..cells], &mut image[..bytes]);
    judge(shape, masks, deadlines, averages, worst)?;

    let head = 1 << 28 | (n as u32) << 21 | (levels as u32) << 17 | shape.cycle >> 13;
    image[..4].copy_from_slice(&head.to_be_bytes());
    image[4..6].copy_from_slice(&((shape.cycle << 3) as u16).to_be_bytes());
    let heads = masks.iter().zip(deadlines);
    let rows = averages.chunks_exact(levels).zip(worst.chunks_exact(levels));
    for ((record, (mask, deadline)), (averages, worst)) in
        image[6..].chunks_exact_mut(shape.stride).zip(heads).zip(rows)
    {
        record[..8].copy_from_slice(&mask.to_be_bytes());
        record[8..12].copy_from_slice(&(deadline << 2).to_be_bytes());
        for (cell, (&average, &worst)) in record[12..].chunks_exact_mut(6).zip(averages.iter().zip(worst)) {
            let word = u64::from(average) << 40 | u64::from(worst) << 16;
            cell.copy_from_slice(&word.to_be_bytes()[..6]);
        }
    }
    Ok(bytes)
}

/// Refusals 6 to 9 of a writing.
fn judge(shape: Shape, masks: &[u64], deadlines: &[u32], averages: &[u32], worst: &[u32]) -> Answer<()> {
    let levels = shape.levels;
    let rows = |a: usize| (masks[a], deadlines[a], &averages[a * levels..][..levels], &worst[a * levels..][..levels]);
    let mut faults = Faults::none();
    let mut actions = Actions::default();
    for a in 0..shape.n.min(64) {
        actions.masks[a] = masks[a];
        actions.deadlines[a] = shape.deadline(deadlines[a]);
        actions.worst[a] = worst[a * levels];
        faults.add_rows(shape, rows(a));
    }
    if let Err(refused) = faults.first() {
        return Err(at_fault(refused, shape.n, |faults, a| faults.add_rows(shape, rows(a))));
    }
    arrange(&actions, shape.n).map(|_| ())
}

/// The action's own part of the image, empty with a refusal.
pub fn lookup(image: &[u8], action: usize) -> &[u8] {
    match examine(image) {
        Ok((shape, _)) if action < shape.n => shape.record(image, action),
        _ => &[],
    }
}

/// The refusal of that lookup.
pub fn lookup_refusal(image: &[u8], action: usize) -> Answer<()> {
    match examine(image)? {
        (shape, _) if action < shape.n => Ok(()),
        _ => Err(refused::NAME),
    }
}
