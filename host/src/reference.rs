//! The rules by their definitions: sums are summed, least and greatest are sought over all candidates, bits are taken one by one.
//! Nothing here is worked out from its neighbour. Whole numbers are `i64`, in which no value of the rules overflows.

mod bits;
mod image;
mod limits;
mod order;
mod profile;
mod recording;
mod refresh;
mod repeat;
mod run;
mod speed;

pub use image::{
    accept, accept_but_unfit, check, from_tables, lookup, lookup_refusal, read, spare_bit_set, unpack, write,
};
pub use limits::{plan, Planned, Policy};
pub use order::{Follows, Order};
pub use profile::{Profile, Set};
pub use recording::{open_recording, rehearse, totals_out};
pub use refresh::refresh;
pub use repeat::{
    body_ask, body_bound, body_dry_frame, body_fields_out, body_limit, body_report, body_start, plan_body, Lent,
    Longest, Summary, Sums, Unrolled,
};
pub use run::{ask, asked, dry_run, fields_out, granted, in_range, report, start, Bounds, Limits};
pub use speed::{on_time, speed_reading};
