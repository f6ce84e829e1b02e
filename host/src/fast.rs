//! The public calls for speed: one pass over an image, order by bit sets, each limit row and each coast bound from the one after it.

mod image;
mod order;
mod plan;
mod recording;
mod refresh;
mod repeat;
mod run;
mod speed;

pub use image::{check, lookup, lookup_refusal, read, write};
pub use plan::plan;
pub use recording::{open_recording, rehearse};
pub use refresh::refresh;
pub use repeat::{body_ask, body_bound, body_dry_frame, body_limit, body_report, body_start, plan_body};
pub use run::{ask, ask_lent, dry_run, report, report_lent, start};
pub use speed::speed_reading;
