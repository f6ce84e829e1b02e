//! The profile image: its check, reading, writing, lookup.

use super::bits::{get, put};
use super::profile::{counts_in_range, Profile};
use crate::calls::{refused, Answer, Counts, Refused};

const HEADER: usize = 48;

/// The bits of one record.
fn record_bits(levels: usize) -> usize {
    64 + 30 + 2 + levels * 48
}

/// The bit where the record of an action starts.
fn record_start(levels: usize, action: usize) -> usize {
    HEADER + action * record_bits(levels)
}

/// The bit where an average starts; the worst time is the next number.
fn average_start(levels: usize, action: usize, level: usize) -> usize {
    record_start(levels, action) + 96 + level * 48
}

/// The bytes of an image.
pub fn length(n: usize, levels: usize) -> usize {
    6 + n * (12 + 6 * levels)
}

fn header(image: &[u8]) -> Counts {
    Counts { n: get(image, 4, 7) as usize, levels: get(image, 11, 4) as usize, cycle: get(image, 15, 30) as u32 }
}

/// The numbers of an image whose length is right.
pub fn unpack(image: &[u8]) -> Profile {
    let counts = header(image);
    let (n, levels) = (counts.n, counts.levels);
    let times = |offset: usize| {
        let time = |a, q| get(image, average_start(levels, a, q) + offset, 24) as i64;
        (0..n).map(|a| (0..levels).map(|q| time(a, q)).collect()).collect()
    };
    Profile {
        n,
        levels,
        cycle: i64::from(counts.cycle),
        masks: (0..n).map(|a| get(image, record_start(levels, a), 64)).collect(),
        deadlines: (0..n).map(|a| get(image, record_start(levels, a) + 64, 30) as i64).collect(),
        averages: times(0),
        worst: times(24),
    }
}

/// The image of a profile whose numbers fit their fields.
fn pack(profile: &Profile) -> Vec<u8> {
    let mut image = vec![0; length(profile.n, profile.levels)];
    put(&mut image, 0, 4, 1);
    put(&mut image, 4, 7, profile.n as u64);
    put(&mut image, 11, 4, profile.levels as u64);
    put(&mut image, 15, 30, profile.cycle as u64);
    for a in 0..profile.n {
        let start = record_start(profile.levels, a);
        put(&mut image, start, 64, profile.masks[a]);
        put(&mut image, start + 64, 30, profile.deadlines[a] as u64);
        for q in 0..profile.levels {
            let start = average_start(profile.levels, a, q);
            put(&mut image, start, 24, profile.averages[a][q] as u64);
            put(&mut image, start + 24, 24, profile.worst[a][q] as u64);
        }
    }
    image
}

/// The actions with a spare bit set in their record, from the lowest up.
pub fn spare_bit_set(image: &[u8]) -> Vec<usize> {
    let Counts { n, levels, .. } = header(image);
    (0..n).filter(|&a| get(image, record_start(levels, a) + 94, 2) != 0).collect()
}

/// 5, of no action where a spare bit of the header alone is set.
fn spare_refusal(image: &[u8]) -> Option<Refused> {
    match spare_bit_set(image).first() {
        Some(&a) => Some(refused::SPARE.at(a)),
        None => (get(image, 45, 3) != 0).then_some(refused::SPARE),
    }
}

/// The profile of an accepted image, or the refusal 1 to 9.
pub fn accept(image: &[u8]) -> Answer<Profile> {
    let profile = accept_but_unfit(image)?;
    if profile.unfit() {
        return Err(refused::UNFIT);
    }
    Ok(profile)
}

/// The same up to 8.
pub fn accept_but_unfit(image: &[u8]) -> Answer<Profile> {
    if image.len() < 6 {
        return Err(refused::SHORT);
    }
    if get(image, 0, 4) != 1 {
        return Err(refused::VERSION);
    }
    let counts = header(image);
    if !counts_in_range(counts) {
        return Err(refused::COUNT);
    }
    if image.len() != length(counts.n, counts.levels) {
        return Err(refused::LENGTH);
    }
    if let Some(refused) = spare_refusal(image) {
        return Err(refused);
    }
    let profile = unpack(image);
    match profile.refusal_but_unfit() {
        Some(refused) => Err(refused),
        None => Ok(profile),
    }
}

/// The image check.
pub fn check(image: &[u8]) -> Answer<Counts> {
    accept(image).map(|_| header(image))
}

/// Unpacks an image into lent slices.
pub fn read(
    image: &[u8],
    masks: &mut [u64],
    deadlines: &mut [u32],
    averages: &mut [u32],
    worst: &mut [u32],
) -> Answer<Counts> {
    let profile = accept(image)?;
    let (n, levels) = (profile.n, profile.levels);
    if masks.len() < n || deadlines.len() < n || averages.len() < n * levels || worst.len() < n * levels {
        return Err(refused::ROOM);
    }
    for a in 0..n {
        masks[a] = profile.masks[a];
        deadlines[a] = profile.deadlines[a] as u32;
        for q in 0..levels {
            averages[a * levels + q] = profile.averages[a][q] as u32;
            worst[a * levels + q] = profile.worst[a][q] as u32;
        }
    }
    Ok(header(image))
}

/// The numbers of lent slices that are long enough.
pub fn from_tables(counts: Counts, masks: &[u64], deadlines: &[u32], averages: &[u32], worst: &[u32]) -> Profile {
    let (n, levels) = (counts.n, counts.levels);
    let times = |table: &[u32]| -> Vec<Vec<i64>> {
        (0..n).map(|a| (0..levels).map(|q| i64::from(table[a * levels + q])).collect()).collect()
    };
    Profile {
        n,
        levels,
        cycle: i64::from(counts.cycle),
        masks: masks[..n].to_vec(),
        deadlines: deadlines[..n].iter().map(|&deadline| i64::from(deadline)).collect(),
        averages: times(averages),
        worst: times(worst),
    }
}

/// Packs lent slices into a lent image and answers its bytes.
pub fn write(
    counts: Counts,
    masks: &[u64],
    deadlines: &[u32],
    averages: &[u32],
    worst: &[u32],
    image: &mut [u8],
) -> Answer<usize> {
    if !counts_in_range(counts) {
        return Err(refused::COUNT);
    }
    let (n, levels) = (counts.n, counts.levels);
    let bytes = length(n, levels);
    let times_short = averages.len() < n * levels || worst.len() < n * levels;
    if masks.len() < n || deadlines.len() < n || times_short || image.len() < bytes {
        return Err(refused::ROOM);
    }
    let profile = from_tables(counts, masks, deadlines, averages, worst);
    if let Some(refused) = profile.refusal() {
        return Err(refused);
    }
    image[..bytes].copy_from_slice(&pack(&profile));
    Ok(bytes)
}

/// The refusal of a lookup, or the place of the action's part.
fn find(image: &[u8], action: usize) -> Answer<std::ops::Range<usize>> {
    let profile = accept(image)?;
    if action >= profile.n {
        return Err(refused::NAME);
    }
    let start = record_start(profile.levels, action) / 8;
    Ok(start..start + record_bits(profile.levels) / 8)
}

/// The action's own part of the image, empty with a refusal.
pub fn lookup(image: &[u8], action: usize) -> &[u8] {
    match find(image, action) {
        Ok(part) => &image[part],
        Err(_) => &[],
    }
}

/// The refusal of that lookup.
pub fn lookup_refusal(image: &[u8], action: usize) -> Answer<()> {
    find(image, action).map(|_| ())
}

/// Puts an average into an image.
pub fn put_average(image: &mut [u8], levels: usize, action: usize, level: usize, average: i64) {
    put(image, average_start(levels, action, level), 24, average as u64);
}
