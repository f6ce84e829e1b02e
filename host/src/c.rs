//! The calls of `c/fast.c`, from a shared library that is built and opened when asked for.

use crate::boundary::{Fault, ACCEPTED};
use crate::calls::{
    Answer, Body, BodyDried, BodyRun, BodyTables, Calls, Counts, Dried, Given, Line, Opened, Reading, Refused, Run,
    Tables, Totals, NO_ACTION,
};
use std::ffi::{c_char, c_int, c_void, CStr, CString};
use std::os::unix::ffi::OsStrExt;
use std::path::Path;
use std::process::Command;

extern "C" {
    fn dlopen(path: *const c_char, flags: c_int) -> *mut c_void;
    fn dlsym(library: *mut c_void, name: *const c_char) -> *mut c_void;
}

const RTLD_NOW: c_int = 2;

/// What `fast_speed_reading` answers where the time is spent.
const SPENT: Refused = Refused::of(255);

/// Declares the table of functions with their types, and how to find them in a library.
macro_rules! functions {
    ($($name:ident: $kind:ty,)*) => {
        /// The functions of `c/fast.h`, found by name.
        pub struct C {
            $($name: $kind,)*
        }

        impl C {
            /// Opens a shared library built of `c/fast.c`.
            pub fn open(path: &Path) -> Result<C, String> {
                let name = CString::new(path.as_os_str().as_bytes()).map_err(|error| error.to_string())?;
                // The library has no initialisers, and stays open to the end of the program.
                let library = unsafe { dlopen(name.as_ptr(), RTLD_NOW) };
                if library.is_null() {
                    return Err(format!("{} does not open", path.display()));
                }
                Ok(C {
                    $($name: {
                        let found = symbol(library, concat!("fast_", stringify!($name), "\0"))?;
                        // The types are those of the header.
                        unsafe { std::mem::transmute::<*mut c_void, $kind>(found) }
                    },)*
                })
            }
        }
    };
}

fn symbol(library: *mut c_void, name: &str) -> Result<*mut c_void, String> {
    let name = CStr::from_bytes_with_nul(name.as_bytes()).map_err(|error| error.to_string())?;
    let found = unsafe { dlsym(library, name.as_ptr()) };
    if found.is_null() {
        return Err(format!("no function {name:?}"));
    }
    Ok(found)
}

functions! {
    check: unsafe extern "C" fn(*const u8, usize, *mut Counts) -> Fault,
    read: unsafe extern "C" fn(
        *const u8, usize, *mut u64, usize, *mut u32, usize, *mut u32, usize, *mut u32, usize, *mut Counts,
    ) -> Fault,
    write: unsafe extern "C" fn(
        usize, usize, u32, *const u64, usize, *const u32, usize, *const u32, usize, *const u32, usize, *mut u8, usize, *mut usize,
    ) -> Fault,
    lookup: unsafe extern "C" fn(*const u8, usize, usize, *mut *const u8, *mut usize) -> Fault,
    plan: unsafe extern "C" fn(
        *const u8, usize, u32, *mut u8, usize, *mut i32, usize, *mut u32, usize, *mut i32, usize, *mut Counts,
    ) -> Fault,
    start: unsafe extern "C" fn(*mut Run, usize, usize) -> u32,
    ask: unsafe extern "C" fn(*mut Run, *const u8, usize, *const i32, usize, *const i32, usize, *mut Given) -> u32,
    report: unsafe extern "C" fn(*mut Run, u32, *const u32, usize) -> u32,
    dry_run: unsafe extern "C" fn(
        usize, usize, *const i32, usize, *const u32, usize, *const i32, usize, *const u32, usize, *mut u8, usize, *mut u8, usize,
        *mut Dried,
    ) -> u32,
    open_recording: unsafe extern "C" fn(
        *const u8, usize, u32, usize, *mut u8, usize, *mut i32, usize, *mut u32, usize, *mut i32, usize, *mut Opened,
    ) -> Fault,
    rehearse: unsafe extern "C" fn(
        *mut Totals, usize, usize, *const i32, usize, *const u32, usize, *const i32, usize, *const u8, usize, *mut Line,
    ) -> u32,
    plan_body: unsafe extern "C" fn(
        *const u8, usize, u32, u32, *mut u8, usize, *mut u32, usize, *mut u32, usize, *mut Body,
    ) -> Fault,
    body_limit: unsafe extern "C" fn(*const Body, *const u32, usize, usize, usize, *mut i64) -> u32,
    body_bound: unsafe extern "C" fn(
        *const Body, *const u32, usize, *const u32, usize, usize, usize, usize, *mut i64,
    ) -> u32,
    body_start: unsafe extern "C" fn(*mut BodyRun, *const Body) -> u32,
    body_ask: unsafe extern "C" fn(
        *mut BodyRun, *const u8, usize, *const u32, usize, *const u32, usize, *mut Given,
    ) -> u32,
    body_report: unsafe extern "C" fn(*mut BodyRun, u32, *const u32, usize) -> u32,
    body_dry_frame: unsafe extern "C" fn(
        *const u8, usize, u32, u32, *const u32, usize, *mut u8, usize, *mut u8, usize, *mut u8, usize, *mut BodyDried,
    ) -> Fault,
    speed_reading: unsafe extern "C" fn(*const u8, usize, usize, usize, usize, u32, *mut f64) -> Fault,
    refresh: unsafe extern "C" fn(*const u8, usize, *const u8, usize, *mut u8, usize, *mut usize) -> Fault,
}

/// A refusal of the run is its number alone.
impl From<u32> for Fault {
    fn from(number: u32) -> Fault {
        Fault { number, action: NO_ACTION }
    }
}

fn answer<T>(refusal: impl Into<Fault>, value: T) -> Answer<T> {
    match refusal.into() {
        Fault { number: ACCEPTED, action: NO_ACTION } => Ok(value),
        Fault { number, action } => Err(Refused::of(number).at(action as usize)),
    }
}

impl C {
    /// Builds `c/fast.c` into a folder with the given options and opens it. The compiler is `CC`, or gcc.
    pub fn build(folder: &Path, name: &str, options: &[&str]) -> Result<C, String> {
        let source = Path::new(env!("CARGO_MANIFEST_DIR")).join("c/fast.c");
        let library = folder.join(name);
        let compiler = std::env::var("CC").unwrap_or_else(|_| "gcc".to_string());
        let status = Command::new(&compiler)
            .args(["-std=c11", "-shared", "-fPIC"])
            .args(options)
            .arg("-o")
            .arg(&library)
            .arg(&source)
            .status()
            .map_err(|error| format!("{compiler}: {error}"))?;
        if !status.success() {
            return Err(format!("{compiler} does not build {}", source.display()));
        }
        C::open(&library)
    }
}

// Each call hands over pointers and counts of live slices, which is all that the header asks for.
impl Calls for C {
    fn check(&self, image: &[u8]) -> Answer<Counts> {
        let mut counts = Counts::default();
        let fault = unsafe { (self.check)(image.as_ptr(), image.len(), &mut counts) };
        answer(fault, counts)
    }

    fn read(
        &self,
        image: &[u8],
        masks: &mut [u64],
        deadlines: &mut [u32],
        averages: &mut [u32],
        worst_by_action: &mut [u32],
    ) -> Answer<Counts> {
        let mut counts = Counts::default();
        let fault = unsafe {
            (self.read)(
                image.as_ptr(),
                image.len(),
                masks.as_mut_ptr(),
                masks.len(),
                deadlines.as_mut_ptr(),
                deadlines.len(),
                averages.as_mut_ptr(),
                averages.len(),
                worst_by_action.as_mut_ptr(),
                worst_by_action.len(),
                &mut counts,
            )
        };
        answer(fault, counts)
    }

    fn write(
        &self,
        counts: Counts,
        masks: &[u64],
        deadlines: &[u32],
        averages: &[u32],
        worst_by_action: &[u32],
        image: &mut [u8],
    ) -> Answer<usize> {
        let mut written = 0;
        let fault = unsafe {
            (self.write)(
                counts.n,
                counts.levels,
                counts.cycle,
                masks.as_ptr(),
                masks.len(),
                deadlines.as_ptr(),
                deadlines.len(),
                averages.as_ptr(),
                averages.len(),
                worst_by_action.as_ptr(),
                worst_by_action.len(),
                image.as_mut_ptr(),
                image.len(),
                &mut written,
            )
        };
        answer(fault, written)
    }

    fn lookup<'a>(&self, image: &'a [u8], action: usize) -> &'a [u8] {
        let (mut part, mut length) = (image.as_ptr(), 0);
        unsafe {
            (self.lookup)(image.as_ptr(), image.len(), action, &mut part, &mut length);
            std::slice::from_raw_parts(part, length)
        }
    }

    fn lookup_refusal(&self, image: &[u8], action: usize) -> Answer<()> {
        let (mut part, mut length) = (image.as_ptr(), 0);
        answer(unsafe { (self.lookup)(image.as_ptr(), image.len(), action, &mut part, &mut length) }, ())
    }

    fn plan(
        &self,
        image: &[u8],
        policy: u32,
        order: &mut [u8],
        limits: &mut [i32],
        worst_by_position: &mut [u32],
        bounds: &mut [i32],
    ) -> Answer<Counts> {
        let mut counts = Counts::default();
        let fault = unsafe {
            (self.plan)(
                image.as_ptr(),
                image.len(),
                policy,
                order.as_mut_ptr(),
                order.len(),
                limits.as_mut_ptr(),
                limits.len(),
                worst_by_position.as_mut_ptr(),
                worst_by_position.len(),
                bounds.as_mut_ptr(),
                bounds.len(),
                &mut counts,
            )
        };
        answer(fault, counts)
    }

    fn start(&self, n: usize, levels: usize) -> (Run, u8) {
        let mut run = Run::default();
        let number = self.start_lent(&mut run, n, levels);
        (run, number)
    }

    fn start_lent(&self, run: &mut Run, n: usize, levels: usize) -> u8 {
        unsafe { (self.start)(run, n, levels) as u8 }
    }

    fn ask(&self, mut run: Run, order: &[u8], limits: &[i32], bounds: &[i32]) -> (Run, Answer<Given>) {
        let answer = self.ask_lent(&mut run, order, limits, bounds);
        (run, answer)
    }

    fn ask_lent(&self, run: &mut Run, order: &[u8], limits: &[i32], bounds: &[i32]) -> Answer<Given> {
        let mut asked = Given::default();
        let number = unsafe {
            (self.ask)(
                run,
                order.as_ptr(),
                order.len(),
                limits.as_ptr(),
                limits.len(),
                bounds.as_ptr(),
                bounds.len(),
                &mut asked,
            )
        };
        // Field by field: what was written in parts is slow to load as a whole.
        let Given { action, level, decided, late } = asked;
        answer(number, Given { action, level, decided, late })
    }

    fn report(&self, mut run: Run, clock: u32, worst_by_position: &[u32]) -> (Run, u8) {
        let number = self.report_lent(&mut run, clock, worst_by_position);
        (run, number)
    }

    fn report_lent(&self, run: &mut Run, clock: u32, worst_by_position: &[u32]) -> u8 {
        unsafe { (self.report)(run, clock, worst_by_position.as_ptr(), worst_by_position.len()) as u8 }
    }

    fn dry_run(
        &self,
        n: usize,
        levels: usize,
        tables: Tables,
        durations: &[u32],
        given: &mut [u8],
        marks: &mut [u8],
    ) -> Answer<Dried> {
        let mut cycle = Dried::default();
        let number = unsafe {
            (self.dry_run)(
                n,
                levels,
                tables.limits.as_ptr(),
                tables.limits.len(),
                tables.worst_by_position.as_ptr(),
                tables.worst_by_position.len(),
                tables.bounds.as_ptr(),
                tables.bounds.len(),
                durations.as_ptr(),
                durations.len(),
                given.as_mut_ptr(),
                given.len(),
                marks.as_mut_ptr(),
                marks.len(),
                &mut cycle,
            )
        };
        answer(number, cycle)
    }

    fn open_recording(
        &self,
        image: &[u8],
        policy: u32,
        bytes: usize,
        order: &mut [u8],
        limits: &mut [i32],
        worst_by_position: &mut [u32],
        bounds: &mut [i32],
    ) -> Answer<Opened> {
        let mut opened = Opened::default();
        let fault = unsafe {
            (self.open_recording)(
                image.as_ptr(),
                image.len(),
                policy,
                bytes,
                order.as_mut_ptr(),
                order.len(),
                limits.as_mut_ptr(),
                limits.len(),
                worst_by_position.as_mut_ptr(),
                worst_by_position.len(),
                bounds.as_mut_ptr(),
                bounds.len(),
                &mut opened,
            )
        };
        answer(fault, opened)
    }

    fn rehearse(&self, totals: &mut Totals, n: usize, levels: usize, tables: Tables, frame: &[u8]) -> Answer<Line> {
        let mut line = Line::default();
        let number = unsafe {
            (self.rehearse)(
                totals,
                n,
                levels,
                tables.limits.as_ptr(),
                tables.limits.len(),
                tables.worst_by_position.as_ptr(),
                tables.worst_by_position.len(),
                tables.bounds.as_ptr(),
                tables.bounds.len(),
                frame.as_ptr(),
                frame.len(),
                &mut line,
            )
        };
        answer(number, line)
    }

    fn plan_body(
        &self,
        image: &[u8],
        repeats: u32,
        policy: u32,
        order: &mut [u8],
        summaries: &mut [u32],
        worst_by_position: &mut [u32],
    ) -> Answer<Body> {
        let mut body = Body::default();
        let fault = unsafe {
            (self.plan_body)(
                image.as_ptr(),
                image.len(),
                repeats,
                policy,
                order.as_mut_ptr(),
                order.len(),
                summaries.as_mut_ptr(),
                summaries.len(),
                worst_by_position.as_mut_ptr(),
                worst_by_position.len(),
                &mut body,
            )
        };
        answer(fault, body)
    }

    fn body_limit(&self, body: Body, summaries: &[u32], position: usize, level: usize) -> Answer<i64> {
        let mut limit = 0;
        let number =
            unsafe { (self.body_limit)(&body, summaries.as_ptr(), summaries.len(), position, level, &mut limit) };
        answer(number, limit)
    }

    fn body_bound(
        &self,
        body: Body,
        summaries: &[u32],
        worst_by_position: &[u32],
        position: usize,
        level: usize,
        length: usize,
    ) -> Answer<i64> {
        let mut bound = 0;
        let number = unsafe {
            (self.body_bound)(
                &body,
                summaries.as_ptr(),
                summaries.len(),
                worst_by_position.as_ptr(),
                worst_by_position.len(),
                position,
                level,
                length,
                &mut bound,
            )
        };
        answer(number, bound)
    }

    fn body_start(&self, run: &mut BodyRun, body: Body) -> u8 {
        unsafe { (self.body_start)(run, &body) as u8 }
    }

    fn body_ask(&self, run: &mut BodyRun, tables: &BodyTables) -> Answer<Given> {
        let mut asked = Given::default();
        let number = unsafe {
            (self.body_ask)(
                run,
                tables.order.as_ptr(),
                tables.order.len(),
                tables.summaries.as_ptr(),
                tables.summaries.len(),
                tables.worst_by_position.as_ptr(),
                tables.worst_by_position.len(),
                &mut asked,
            )
        };
        // Field by field, as of a plain asking.
        let Given { action, level, decided, late } = asked;
        answer(number, Given { action, level, decided, late })
    }

    fn body_report(&self, run: &mut BodyRun, clock: u32, worst_by_position: &[u32]) -> u8 {
        unsafe { (self.body_report)(run, clock, worst_by_position.as_ptr(), worst_by_position.len()) as u8 }
    }

    fn body_dry_frame(
        &self,
        image: &[u8],
        repeats: u32,
        policy: u32,
        durations: &[u32],
        order: &mut [u8],
        given: &mut [u8],
        marks: &mut [u8],
    ) -> Answer<BodyDried> {
        let mut cycle = BodyDried::default();
        let fault = unsafe {
            (self.body_dry_frame)(
                image.as_ptr(),
                image.len(),
                repeats,
                policy,
                durations.as_ptr(),
                durations.len(),
                order.as_mut_ptr(),
                order.len(),
                given.as_mut_ptr(),
                given.len(),
                marks.as_mut_ptr(),
                marks.len(),
                &mut cycle,
            )
        };
        answer(fault, cycle)
    }

    fn speed_reading(&self, image: &[u8], first: usize, last: usize, level: usize, t: u32) -> Reading {
        let mut ratio = 0.0;
        let fault = unsafe { (self.speed_reading)(image.as_ptr(), image.len(), first, last, level, t, &mut ratio) };
        match answer(fault, ratio) {
            Ok(ratio) => Reading::Ratio(ratio),
            Err(SPENT) => Reading::Spent,
            Err(refused) => Reading::Refused(refused),
        }
    }

    fn refresh(&self, image: &[u8], trace: &[u8], fresh: &mut [u8]) -> Answer<usize> {
        let mut written = 0;
        let fault = unsafe {
            (self.refresh)(
                image.as_ptr(),
                image.len(),
                trace.as_ptr(),
                trace.len(),
                fresh.as_mut_ptr(),
                fresh.len(),
                &mut written,
            )
        };
        answer(fault, written)
    }
}
