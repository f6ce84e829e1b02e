//! `include/nyokazerubi.h` for a host in Rust: the same types, names, numbers and calls, in the same order. It stands on `core` alone and can be taken as
//! it is. What a call asks of the memory that it is lent, what it answers and what it writes is said in the header.

#![allow(dead_code, clippy::too_many_arguments)]

/// The version of this boundary; [`nyokazerubi_boundary`] has that of the archive that is linked.
pub const BOUNDARY: u32 = 6;

pub const MOST_ACTIONS: usize = 64;
pub const MOST_LEVELS: usize = 8;
pub const LONGEST_COAST: usize = 16;
pub const MOST_RECORDS: usize = 65_535;
pub const MOST_FRAMES: usize = 4_096;
pub const MOST_REPEATS: u32 = 1_620;
pub const MOST_POSITIONS: usize = 103_680;
pub const SUMMARY_NUMBERS: usize = 4;
pub const LAST_CLOCK: u32 = 1_073_741_823;
pub const LONGEST_TIME: u32 = 16_777_215;
pub const NO_ACTION: u32 = 64;
pub const POLICY_2008: u32 = 2_008;
pub const POLICY_2005: u32 = 2_005;
pub const ABSENT_BOUND: i32 = i32::MIN;
pub const ABSENT_LONG: i64 = i64::MIN;

/// The bytes of an image.
pub const fn image_bytes(n: usize, levels: usize) -> usize {
    6 + n * (12 + 6 * levels)
}

/// The entries of limits, durations, averages and both tables of worst times.
pub const fn table_entries(n: usize, levels: usize) -> usize {
    n * levels
}

/// The entries of the coast bounds.
pub const fn bounds_entries(n: usize, levels: usize) -> usize {
    LONGEST_COAST * table_entries(n, levels)
}

/// The bytes of a trace.
pub const fn trace_bytes(records: usize) -> usize {
    5 * records
}

/// The bytes of a frame of a recording.
pub const fn frame_bytes(n: usize, levels: usize) -> usize {
    4 * table_entries(n, levels)
}

/// The entries of the summaries of a body.
pub const fn summaries_entries(n: usize, levels: usize) -> usize {
    SUMMARY_NUMBERS * table_entries(n, levels)
}

pub const ACCEPTED: u32 = 0;
pub const REFUSED_SHORT: u32 = 1;
pub const REFUSED_VERSION: u32 = 2;
pub const REFUSED_COUNT: u32 = 3;
pub const REFUSED_LENGTH: u32 = 4;
pub const REFUSED_SPARE: u32 = 5;
pub const REFUSED_RANGE: u32 = 6;
pub const REFUSED_TABLE: u32 = 7;
pub const REFUSED_LOOP: u32 = 8;
pub const REFUSED_UNFIT: u32 = 9;
pub const REFUSED_FINISHED: u32 = 10;
pub const REFUSED_TURN: u32 = 11;
pub const REFUSED_BACK: u32 = 12;
pub const REFUSED_CLOCK: u32 = 13;
pub const REFUSED_TRACE: u32 = 14;
pub const REFUSED_NAME: u32 = 15;
pub const REFUSED_DURATION: u32 = 16;
pub const REFUSED_ROOM: u32 = 17;
pub const REFUSED_READING: u32 = 18;
pub const REFUSED_REPEATS: u32 = 19;
pub const REFUSED_POLICY: u32 = 20;

#[derive(Clone, Copy, Debug, PartialEq, Eq)]
#[repr(C)]
pub struct Refusal {
    pub number: u32,
}

#[derive(Clone, Copy, Debug, PartialEq, Eq)]
#[repr(C)]
pub struct Fault {
    pub number: u32,
    pub action: u32,
}

#[derive(Clone, Copy, Debug, PartialEq, Eq)]
#[repr(C)]
pub struct Unpacked {
    pub refusal: Fault,
    pub n: usize,
    pub levels: usize,
    pub cycle: u32,
}

#[derive(Clone, Copy, Debug, PartialEq, Eq)]
#[repr(C)]
pub struct Written {
    pub refusal: Fault,
    pub bytes: usize,
}

#[derive(Clone, Copy, Debug, PartialEq, Eq)]
#[repr(C)]
pub struct Place {
    pub refusal: Fault,
    pub start: usize,
    pub length: usize,
}

#[derive(Clone, Copy, Debug, PartialEq, Eq)]
#[repr(C)]
pub struct Planned {
    pub refusal: Fault,
    pub n: usize,
    pub levels: usize,
    pub cycle: u32,
}

/// The run record: 32 bytes, the marks last.
#[derive(Clone, Copy, Debug, Default, PartialEq, Eq)]
#[repr(C)]
pub struct Run {
    pub n: u32,
    pub levels: u32,
    pub position: u32,
    pub clock: u32,
    pub level: u32,
    pub left: u32,
    pub decisions: u32,
    pub running: bool,
    pub overrun: bool,
    pub late: bool,
}

#[derive(Clone, Copy, Debug, PartialEq, Eq)]
#[repr(C)]
pub struct Given {
    pub refusal: Refusal,
    pub action: u32,
    pub level: u32,
    pub decided: bool,
    pub late: bool,
}

#[derive(Clone, Copy, Debug, PartialEq, Eq)]
#[repr(C)]
pub struct Dried {
    pub refusal: Refusal,
    pub decisions: u32,
    pub end: u32,
    pub overrun: bool,
    pub late: bool,
}

#[derive(Clone, Copy, Debug, PartialEq, Eq)]
#[repr(C)]
pub struct Framed {
    pub refusal: Fault,
    pub n: usize,
    pub decisions: u32,
    pub end: u32,
    pub overrun: bool,
    pub late: bool,
}

#[derive(Clone, Copy, Debug, PartialEq, Eq)]
#[repr(C)]
pub struct Opened {
    pub refusal: Fault,
    pub n: usize,
    pub levels: usize,
    pub frame_bytes: usize,
    pub frames: usize,
}

/// The totals over the frames run: 16 bytes. A recording begins with the default, all of them 0.
#[derive(Clone, Copy, Debug, Default, PartialEq, Eq)]
#[repr(C)]
pub struct Totals {
    pub frames: u32,
    pub decisions: u32,
    pub overruns: u32,
    pub lates: u32,
}

#[derive(Clone, Copy, Debug, PartialEq, Eq)]
#[repr(C)]
pub struct Line {
    pub refusal: Refusal,
    pub decisions: u32,
    pub lowest: u32,
    pub end: u32,
    pub overrun: bool,
    pub late: bool,
}

/// A body repeated: 20 bytes, as planning answers it. By value these go through memory, so that it is lent.
#[derive(Clone, Copy, Debug, Default, PartialEq, Eq)]
#[repr(C)]
pub struct Body {
    pub n: u32,
    pub levels: u32,
    pub cycle: u32,
    pub repeats: u32,
    pub policy: u32,
}

#[derive(Clone, Copy, Debug, PartialEq, Eq)]
#[repr(C)]
pub struct BodyPlanned {
    pub refusal: Fault,
    pub body: Body,
}

#[derive(Clone, Copy, Debug, PartialEq, Eq)]
#[repr(C)]
pub struct Limited {
    pub refusal: Refusal,
    pub limit: i64,
}

/// The run record of a body repeated: 48 bytes, the last four of them padding.
#[derive(Clone, Copy, Debug, Default, PartialEq, Eq)]
#[repr(C)]
pub struct BodyRun {
    pub body: Body,
    pub level: u32,
    pub clock: u64,
    pub position: u32,
    pub left: u8,
    pub running: bool,
    pub overrun: bool,
    pub late: bool,
    pub decisions: u32,
}

#[derive(Clone, Copy, Debug, PartialEq, Eq)]
#[repr(C)]
pub struct BodyFramed {
    pub refusal: Fault,
    pub decisions: u32,
    pub end: u64,
    pub positions: u32,
    pub overrun: bool,
    pub late: bool,
}

#[derive(Clone, Copy, Debug, PartialEq)]
#[repr(C)]
pub struct Reading {
    pub refusal: Fault,
    pub spent: bool,
    pub ratio: f64,
}

#[derive(Clone, Copy, Debug, PartialEq, Eq)]
#[repr(C)]
pub struct Refreshed {
    pub refusal: Fault,
    pub bytes: usize,
}

extern "C" {
    pub fn nyokazerubi_boundary() -> u32;
    pub fn nyokazerubi_check(image: *const u8, image_length: usize) -> Fault;
    pub fn nyokazerubi_read(
        image: *const u8,
        image_length: usize,
        masks: *mut u64,
        masks_length: usize,
        deadlines: *mut u32,
        deadlines_length: usize,
        averages: *mut u32,
        averages_length: usize,
        worst_by_action: *mut u32,
        worst_by_action_length: usize,
    ) -> Unpacked;
    pub fn nyokazerubi_write(
        n: usize,
        levels: usize,
        cycle: u32,
        masks: *const u64,
        masks_length: usize,
        deadlines: *const u32,
        deadlines_length: usize,
        averages: *const u32,
        averages_length: usize,
        worst_by_action: *const u32,
        worst_by_action_length: usize,
        image: *mut u8,
        image_length: usize,
    ) -> Written;
    pub fn nyokazerubi_write_encoder(image: *mut u8, image_length: usize) -> Written;
    pub fn nyokazerubi_lookup(image: *const u8, image_length: usize, action: usize) -> Place;
    pub fn nyokazerubi_lookup_refusal(image: *const u8, image_length: usize, action: usize) -> Fault;
    pub fn nyokazerubi_plan(
        image: *const u8,
        image_length: usize,
        policy: u32,
        order: *mut u8,
        order_length: usize,
        limits: *mut i32,
        limits_length: usize,
        worst_by_position: *mut u32,
        worst_by_position_length: usize,
        bounds: *mut i32,
        bounds_length: usize,
    ) -> Planned;
    pub fn nyokazerubi_start(run: *mut Run, n: usize, levels: usize) -> Refusal;
    pub fn nyokazerubi_ask(
        run: *mut Run,
        order: *const u8,
        order_length: usize,
        limits: *const i32,
        limits_length: usize,
        bounds: *const i32,
        bounds_length: usize,
    ) -> Given;
    pub fn nyokazerubi_report(
        run: *mut Run,
        clock: u32,
        worst_by_position: *const u32,
        worst_by_position_length: usize,
    ) -> Refusal;
    pub fn nyokazerubi_dry_run(
        n: usize,
        levels: usize,
        limits: *const i32,
        limits_length: usize,
        worst_by_position: *const u32,
        worst_by_position_length: usize,
        bounds: *const i32,
        bounds_length: usize,
        durations: *const u32,
        durations_length: usize,
        given: *mut u8,
        given_length: usize,
        marks: *mut u8,
        marks_length: usize,
    ) -> Dried;
    pub fn nyokazerubi_dry_frame(
        image: *const u8,
        image_length: usize,
        policy: u32,
        durations: *const u32,
        durations_length: usize,
        order: *mut u8,
        order_length: usize,
        given: *mut u8,
        given_length: usize,
        marks: *mut u8,
        marks_length: usize,
    ) -> Framed;
    pub fn nyokazerubi_open_recording(
        image: *const u8,
        image_length: usize,
        policy: u32,
        bytes: usize,
        order: *mut u8,
        order_length: usize,
        limits: *mut i32,
        limits_length: usize,
        worst_by_position: *mut u32,
        worst_by_position_length: usize,
        bounds: *mut i32,
        bounds_length: usize,
    ) -> Opened;
    pub fn nyokazerubi_rehearse(
        totals: *mut Totals,
        n: usize,
        levels: usize,
        limits: *const i32,
        limits_length: usize,
        worst_by_position: *const u32,
        worst_by_position_length: usize,
        bounds: *const i32,
        bounds_length: usize,
        frame: *const u8,
        frame_length: usize,
    ) -> Line;
    pub fn nyokazerubi_plan_body(
        image: *const u8,
        image_length: usize,
        repeats: u32,
        policy: u32,
        order: *mut u8,
        order_length: usize,
        summaries: *mut u32,
        summaries_length: usize,
        worst_by_position: *mut u32,
        worst_by_position_length: usize,
    ) -> BodyPlanned;
    pub fn nyokazerubi_body_limit(
        body: *const Body,
        summaries: *const u32,
        summaries_length: usize,
        position: usize,
        level: usize,
    ) -> Limited;
    pub fn nyokazerubi_body_bound(
        body: *const Body,
        summaries: *const u32,
        summaries_length: usize,
        worst_by_position: *const u32,
        worst_by_position_length: usize,
        position: usize,
        level: usize,
        length: usize,
    ) -> Limited;
    pub fn nyokazerubi_body_start(run: *mut BodyRun, body: *const Body) -> Refusal;
    pub fn nyokazerubi_body_ask(
        run: *mut BodyRun,
        order: *const u8,
        order_length: usize,
        summaries: *const u32,
        summaries_length: usize,
        worst_by_position: *const u32,
        worst_by_position_length: usize,
    ) -> Given;
    pub fn nyokazerubi_body_report(
        run: *mut BodyRun,
        clock: u32,
        worst_by_position: *const u32,
        worst_by_position_length: usize,
    ) -> Refusal;
    pub fn nyokazerubi_body_dry_frame(
        image: *const u8,
        image_length: usize,
        repeats: u32,
        policy: u32,
        durations: *const u32,
        durations_length: usize,
        order: *mut u8,
        order_length: usize,
        given: *mut u8,
        given_length: usize,
        marks: *mut u8,
        marks_length: usize,
    ) -> BodyFramed;
    pub fn nyokazerubi_speed_reading(
        image: *const u8,
        image_length: usize,
        first: usize,
        last: usize,
        level: usize,
        t: u32,
    ) -> Reading;
    pub fn nyokazerubi_on_time(
        image: *const u8,
        image_length: usize,
        first: usize,
        last: usize,
        level: usize,
        t: u32,
    ) -> bool;
    pub fn nyokazerubi_refresh(
        image: *const u8,
        image_length: usize,
        trace: *const u8,
        trace_length: usize,
        out: *mut u8,
        out_length: usize,
    ) -> Refreshed;
}
