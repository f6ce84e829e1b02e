//! The product's calls, of the archive that `host/native` writes, each in a safe function. The types are those of
//! [`boundary`](crate::boundary); a slice crosses as a pointer and a count.

use crate::boundary::*;
use crate::calls::{self, Answer, BodyDried, BodyTables, Calls, Counts, Refused, Tables};

/// A refusal of the run names no action.
impl From<Refusal> for Fault {
    #[inline(always)]
    fn from(refusal: Refusal) -> Fault {
        Fault { number: refusal.number, action: NO_ACTION }
    }
}

/// The answer's values, or its refusal, with which every value is the first one, 0 or no.
#[inline(always)]
fn answer<T: PartialEq + std::fmt::Debug>(refusal: impl Into<Fault>, values: T, none: T) -> Answer<T> {
    let fault = refusal.into();
    if fault == (Fault { number: ACCEPTED, action: NO_ACTION }) {
        return Ok(values);
    }
    refused(fault, &values, &none)
}

/// Apart, so that the values of an accepted call need not lie in memory for it.
#[cold]
fn refused<T: PartialEq + std::fmt::Debug>(fault: Fault, values: &T, none: &T) -> Answer<T> {
    assert_eq!(values, none, "with {fault:?}");
    assert!(fault.number != ACCEPTED && fault.action <= NO_ACTION, "{fault:?}");
    Err(Refused::of(fault.number).at(fault.action as usize))
}

/// What an asking answers. The values go where they are wanted one by one: laid in memory for a refusal too and taken up whole they would cost more
/// than the call.
#[inline(always)]
fn given(answer: Given) -> Answer<calls::Given> {
    let Given { refusal, action, level, decided, late } = answer;
    if refusal.number == ACCEPTED {
        return Ok(calls::Given { action, level, decided, late });
    }
    none_given(answer)
}

#[cold]
fn none_given(answer: Given) -> Answer<calls::Given> {
    let Given { refusal, action, level, decided, late } = answer;
    refused(refusal.into(), &calls::Given { action, level, decided, late }, &calls::Given::default())
}

/// The product.
#[derive(Clone, Copy, Debug)]
pub struct Product;

impl Product {
    /// The encoder's profile.
    pub fn write_encoder(&self, image: &mut [u8]) -> Answer<usize> {
        let Written { refusal, bytes } = unsafe { nyokazerubi_write_encoder(image.as_mut_ptr(), image.len()) };
        answer(refusal, bytes, 0)
    }

    /// The version of its boundary.
    pub fn boundary(&self) -> u32 {
        unsafe { nyokazerubi_boundary() }
    }
}

// What the header asks of a host is what references promise: pointers that are aligned, not null and live for as many entries as they say, and
// nothing that is written lent twice. A bool of Rust is 0 or 1.
impl Calls for Product {
    fn check(&self, image: &[u8]) -> Answer<Counts> {
        let refusal = unsafe { nyokazerubi_check(image.as_ptr(), image.len()) };
        // The check answers its refusal alone; the counts of an accepted image are in its header.
        answer(refusal, (), ()).map(|()| {
            let bits = image[..6].iter().fold(0, |bits, &byte| bits << 8 | u64::from(byte));
            Counts {
                n: (bits >> 37 & 127) as usize,
                levels: (bits >> 33 & 15) as usize,
                cycle: (bits >> 3 & 0x3fff_ffff) as u32,
            }
        })
    }

    fn read(
        &self,
        image: &[u8],
        masks: &mut [u64],
        deadlines: &mut [u32],
        averages: &mut [u32],
        worst_by_action: &mut [u32],
    ) -> Answer<Counts> {
        let Unpacked { refusal, n, levels, cycle } = unsafe {
            nyokazerubi_read(
                image.as_ptr(),
                image.len(),
                masks.as_mut_ptr(),
                masks.len(),
                deadlines.as_mut_ptr(),
                deadlines.len(),
                averages.as_mut_ptr(),
                averages.len(),
                worst_by_action.as_mut_ptr(),
                worst_by_action.len(),
            )
        };
        answer(refusal, Counts { n, levels, cycle }, Counts::default())
    }

    fn write(
        &self,
        counts: Counts,
        masks: &[u64],
        deadlines: &[u32],
        averages: &[u32],
        worst_by_action: &[u32],
        image: &mut [u8],
    ) -> Answer<usize> {
        let Written { refusal, bytes } = unsafe {
            nyokazerubi_write(
                counts.n,
                counts.levels,
                counts.cycle,
                masks.as_ptr(),
                masks.len(),
                deadlines.as_ptr(),
                deadlines.len(),
                averages.as_ptr(),
                averages.len(),
                worst_by_action.as_ptr(),
                worst_by_action.len(),
                image.as_mut_ptr(),
                image.len(),
            )
        };
        answer(refusal, bytes, 0)
    }

    fn lookup<'a>(&self, image: &'a [u8], action: usize) -> &'a [u8] {
        let Place { refusal, start, length } = unsafe { nyokazerubi_lookup(image.as_ptr(), image.len(), action) };
        let place = answer(refusal, (start, length), (0, 0));
        assert_eq!(place.map(|_| ()), self.lookup_refusal(image, action), "two answers to one lookup");
        &image[start..][..length]
    }

    fn lookup_refusal(&self, image: &[u8], action: usize) -> Answer<()> {
        answer(unsafe { nyokazerubi_lookup_refusal(image.as_ptr(), image.len(), action) }, (), ())
    }

    fn plan(
        &self,
        image: &[u8],
        policy: u32,
        order: &mut [u8],
        limits: &mut [i32],
        worst_by_position: &mut [u32],
        bounds: &mut [i32],
    ) -> Answer<Counts> {
        let Planned { refusal, n, levels, cycle } = unsafe {
            nyokazerubi_plan(
                image.as_ptr(),
                image.len(),
                policy,
                order.as_mut_ptr(),
                order.len(),
                limits.as_mut_ptr(),
                limits.len(),
                worst_by_position.as_mut_ptr(),
                worst_by_position.len(),
                bounds.as_mut_ptr(),
                bounds.len(),
            )
        };
        answer(refusal, Counts { n, levels, cycle }, Counts::default())
    }

    fn start(&self, n: usize, levels: usize) -> (Run, u8) {
        let mut run = Run::default();
        let refusal = self.start_lent(&mut run, n, levels);
        (run, refusal)
    }

    fn start_lent(&self, run: &mut Run, n: usize, levels: usize) -> u8 {
        unsafe { nyokazerubi_start(run, n, levels).number as u8 }
    }

    fn ask(&self, run: Run, order: &[u8], limits: &[i32], bounds: &[i32]) -> (Run, Answer<calls::Given>) {
        let mut next = run;
        let answer = self.ask_lent(&mut next, order, limits, bounds);
        (next, answer)
    }

    fn ask_lent(&self, run: &mut Run, order: &[u8], limits: &[i32], bounds: &[i32]) -> Answer<calls::Given> {
        given(unsafe {
            nyokazerubi_ask(
                run,
                order.as_ptr(),
                order.len(),
                limits.as_ptr(),
                limits.len(),
                bounds.as_ptr(),
                bounds.len(),
            )
        })
    }

    fn report(&self, run: Run, clock: u32, worst_by_position: &[u32]) -> (Run, u8) {
        let mut next = run;
        let refusal = self.report_lent(&mut next, clock, worst_by_position);
        (next, refusal)
    }

    fn report_lent(&self, run: &mut Run, clock: u32, worst_by_position: &[u32]) -> u8 {
        unsafe { nyokazerubi_report(run, clock, worst_by_position.as_ptr(), worst_by_position.len()).number as u8 }
    }

    fn dry_run(
        &self,
        n: usize,
        levels: usize,
        tables: Tables,
        durations: &[u32],
        given: &mut [u8],
        marks: &mut [u8],
    ) -> Answer<calls::Dried> {
        let Dried { refusal, decisions, end, overrun, late } = unsafe {
            nyokazerubi_dry_run(
                n,
                levels,
                tables.limits.as_ptr(),
                tables.limits.len(),
                tables.worst_by_position.as_ptr(),
                tables.worst_by_position.len(),
                tables.bounds.as_ptr(),
                tables.bounds.len(),
                durations.as_ptr(),
                durations.len(),
                given.as_mut_ptr(),
                given.len(),
                marks.as_mut_ptr(),
                marks.len(),
            )
        };
        answer(refusal, calls::Dried { decisions, end, overrun, late }, calls::Dried::default())
    }

    fn dry_frame(
        &self,
        image: &[u8],
        policy: u32,
        durations: &[u32],
        order: &mut [u8],
        given: &mut [u8],
        marks: &mut [u8],
    ) -> Answer<(usize, calls::Dried)> {
        let Framed { refusal, n, decisions, end, overrun, late } = unsafe {
            nyokazerubi_dry_frame(
                image.as_ptr(),
                image.len(),
                policy,
                durations.as_ptr(),
                durations.len(),
                order.as_mut_ptr(),
                order.len(),
                given.as_mut_ptr(),
                given.len(),
                marks.as_mut_ptr(),
                marks.len(),
            )
        };
        let dried = calls::Dried { decisions, end, overrun, late };
        answer(refusal, (n, dried), (0, calls::Dried::default()))
    }

    fn open_recording(
        &self,
        image: &[u8],
        policy: u32,
        bytes: usize,
        order: &mut [u8],
        limits: &mut [i32],
        worst_by_position: &mut [u32],
        bounds: &mut [i32],
    ) -> Answer<calls::Opened> {
        let Opened { refusal, n, levels, frame_bytes, frames } = unsafe {
            nyokazerubi_open_recording(
                image.as_ptr(),
                image.len(),
                policy,
                bytes,
                order.as_mut_ptr(),
                order.len(),
                limits.as_mut_ptr(),
                limits.len(),
                worst_by_position.as_mut_ptr(),
                worst_by_position.len(),
                bounds.as_mut_ptr(),
                bounds.len(),
            )
        };
        answer(refusal, calls::Opened { n, levels, frame_bytes, frames }, calls::Opened::default())
    }

    fn rehearse(
        &self,
        totals: &mut Totals,
        n: usize,
        levels: usize,
        tables: Tables,
        frame: &[u8],
    ) -> Answer<calls::Line> {
        let Line { refusal, decisions, lowest, end, overrun, late } = unsafe {
            nyokazerubi_rehearse(
                totals,
                n,
                levels,
                tables.limits.as_ptr(),
                tables.limits.len(),
                tables.worst_by_position.as_ptr(),
                tables.worst_by_position.len(),
                tables.bounds.as_ptr(),
                tables.bounds.len(),
                frame.as_ptr(),
                frame.len(),
            )
        };
        answer(refusal, calls::Line { decisions, lowest, end, overrun, late }, calls::Line::default())
    }

    fn plan_body(
        &self,
        image: &[u8],
        repeats: u32,
        policy: u32,
        order: &mut [u8],
        summaries: &mut [u32],
        worst_by_position: &mut [u32],
    ) -> Answer<Body> {
        let BodyPlanned { refusal, body } = unsafe {
            nyokazerubi_plan_body(
                image.as_ptr(),
                image.len(),
                repeats,
                policy,
                order.as_mut_ptr(),
                order.len(),
                summaries.as_mut_ptr(),
                summaries.len(),
                worst_by_position.as_mut_ptr(),
                worst_by_position.len(),
            )
        };
        answer(refusal, body, Body::default())
    }

    fn body_limit(&self, body: Body, summaries: &[u32], position: usize, level: usize) -> Answer<i64> {
        let Limited { refusal, limit } =
            unsafe { nyokazerubi_body_limit(&body, summaries.as_ptr(), summaries.len(), position, level) };
        answer(refusal, limit, 0)
    }

    fn body_bound(
        &self,
        body: Body,
        summaries: &[u32],
        worst_by_position: &[u32],
        position: usize,
        level: usize,
        length: usize,
    ) -> Answer<i64> {
        let Limited { refusal, limit } = unsafe {
            nyokazerubi_body_bound(
                &body,
                summaries.as_ptr(),
                summaries.len(),
                worst_by_position.as_ptr(),
                worst_by_position.len(),
                position,
                level,
                length,
            )
        };
        answer(refusal, limit, 0)
    }

    fn body_start(&self, run: &mut BodyRun, body: Body) -> u8 {
        unsafe { nyokazerubi_body_start(run, &body).number as u8 }
    }

    fn body_ask(&self, run: &mut BodyRun, tables: &BodyTables) -> Answer<calls::Given> {
        given(unsafe {
            nyokazerubi_body_ask(
                run,
                tables.order.as_ptr(),
                tables.order.len(),
                tables.summaries.as_ptr(),
                tables.summaries.len(),
                tables.worst_by_position.as_ptr(),
                tables.worst_by_position.len(),
            )
        })
    }

    fn body_report(&self, run: &mut BodyRun, clock: u32, worst_by_position: &[u32]) -> u8 {
        unsafe { nyokazerubi_body_report(run, clock, worst_by_position.as_ptr(), worst_by_position.len()).number as u8 }
    }

    fn body_dry_frame(
        &self,
        image: &[u8],
        repeats: u32,
        policy: u32,
        durations: &[u32],
        order: &mut [u8],
        given: &mut [u8],
        marks: &mut [u8],
    ) -> Answer<BodyDried> {
        let BodyFramed { refusal, decisions, end, positions, overrun, late } = unsafe {
            nyokazerubi_body_dry_frame(
                image.as_ptr(),
                image.len(),
                repeats,
                policy,
                durations.as_ptr(),
                durations.len(),
                order.as_mut_ptr(),
                order.len(),
                given.as_mut_ptr(),
                given.len(),
                marks.as_mut_ptr(),
                marks.len(),
            )
        };
        answer(refusal, BodyDried { decisions, end, positions, overrun, late }, BodyDried::default())
    }

    fn speed_reading(&self, image: &[u8], first: usize, last: usize, level: usize, t: u32) -> calls::Reading {
        let Reading { refusal, spent, ratio } =
            unsafe { nyokazerubi_speed_reading(image.as_ptr(), image.len(), first, last, level, t) };
        match (answer(refusal, (spent, ratio), (false, 0.0)), spent) {
            (Err(refused), _) => calls::Reading::Refused(refused),
            (Ok(_), true) => calls::Reading::Spent,
            (Ok(_), false) => calls::Reading::Ratio(ratio),
        }
    }

    fn on_time(&self, image: &[u8], first: usize, last: usize, level: usize, t: u32) -> bool {
        unsafe { nyokazerubi_on_time(image.as_ptr(), image.len(), first, last, level, t) }
    }

    fn refresh(&self, image: &[u8], trace: &[u8], fresh: &mut [u8]) -> Answer<usize> {
        let Refreshed { refusal, bytes } = unsafe {
            nyokazerubi_refresh(
                image.as_ptr(),
                image.len(),
                trace.as_ptr(),
                trace.len(),
                fresh.as_mut_ptr(),
                fresh.len(),
            )
        };
        answer(refusal, bytes, 0)
    }
}
