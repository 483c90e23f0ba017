//! The entries of the static libraries, called as C calls them (include/ownership_pass.h).
use crate::answer::{Answer, Error, Outcome};
use std::mem::{align_of, offset_of, size_of};

// an entry that gives back the body, with what is before the image
macro_rules! declare_pass {
    ($name:ident $(, $first:ident: $ty:ty)?) => {
        unsafe extern "C" {
            fn $name(
                $($first: $ty,)?
                image: *const u8,
                image_len: usize,
                output: *mut u8,
                output_len: usize,
                errors: *mut u32,
                errors_len: usize,
                warnings: *mut u32,
                warnings_len: usize,
                left: *mut u32,
                left_len: usize,
                totals: *mut u64,
            ) -> u32;
        }
    };
}

// its call: the pointers and lengths are those of slices
macro_rules! call_pass {
    ($name:ident, $image:expr, $lent:expr $(, $first:expr)?) => {
        unsafe {
            $name(
                $($first,)?
                $image.as_ptr(),
                $image.len(),
                $lent.output.as_mut_ptr(),
                $lent.output.len(),
                $lent.errors.as_mut_ptr(),
                $lent.errors.len(),
                $lent.warnings.as_mut_ptr(),
                $lent.warnings.len(),
                $lent.left.as_mut_ptr(),
                $lent.left.len(),
                $lent.totals.as_mut_ptr(),
            )
        }
    };
}

declare_pass!(ownership_pass);
declare_pass!(ownership_pass_switched, switches: u32);

unsafe extern "C" {
    fn ownership_room_switched(switches: u32, image: *const u8, image_len: usize, room: *mut u64) -> u32;
    fn ownership_page_switched(switches: u32, image: *const u8, image_len: usize, page: *mut u8, page_len: usize, written: *mut u64)
    -> u32;
}

/// A switch value for the entries that take one, or the plain entries.
pub type Switches = Option<u32>;

// the entry of an earlier library, under another name
#[cfg(before)]
declare_pass!(before_pass);

unsafe extern "C" {
    fn ownership_room(image: *const u8, image_len: usize, room: *mut u64) -> u32;
    fn ownership_page(image: *const u8, image_len: usize, page: *mut u8, page_len: usize, written: *mut u64) -> u32;
    #[cfg(reports)]
    fn ownership_reports(numbers: *const u32, numbers_len: usize, count: usize, reports: *mut Report, reports_len: usize) -> u32;
}

/// Whether liblent.a is linked.
pub const REPORTS: bool = cfg!(reports);

/// The numbers of one error.
pub const ERROR_NUMBERS: usize = 12;

/// `struct ownership_report`; memory.c has the same assertions of the header.
#[repr(C)]
pub struct Report {
    kind: u32,
    place: u32,
    hint: u32,
    count: u32,
    places: [u32; 8],
}

const _: () = assert!(size_of::<Report>() == 4 * ERROR_NUMBERS && align_of::<Report>() == 4);
const _: () = assert!(offset_of!(Report, kind) == 0 && offset_of!(Report, place) == 4 && offset_of!(Report, hint) == 8);
const _: () = assert!(offset_of!(Report, count) == 12 && offset_of!(Report, places) == 16);

impl Report {
    pub fn of(e: &Error) -> Self {
        let mut places = [0; 8];
        places[..e.others.len()].copy_from_slice(&e.others);
        Report { kind: e.kind, place: e.place, hint: e.hint, count: e.others.len() as u32, places }
    }
}

/// The memory of records as 32-bit words.
pub fn words(reports: &[Report]) -> &[u32] {
    // a record is 12 words, with their alignment and without padding
    unsafe { std::slice::from_raw_parts(reports.as_ptr().cast(), ERROR_NUMBERS * reports.len()) }
}

/// Words lent as records: 0 or 14.
#[cfg(reports)]
pub fn reports(numbers: &[u32], count: usize, lent: &mut [u32]) -> u32 {
    // the pointers and lengths are those of slices; a record as above
    unsafe { ownership_reports(numbers.as_ptr(), numbers.len(), count, lent.as_mut_ptr().cast(), lent.len() / ERROR_NUMBERS) }
}

#[cfg(not(reports))]
pub fn reports(_: &[u32], _: usize, _: &mut [u32]) -> u32 {
    panic!("{}", crate::NO_REPORTS)
}

/// What is lent to the pass: bytes and, for each list, numbers.
pub struct Lent<'a> {
    pub output: &'a mut [u8],
    pub errors: &'a mut [u32],
    pub warnings: &'a mut [u32],
    pub left: &'a mut [u32],
    pub totals: &'a mut [u64; 4],
}

/// 0 or the fault's number.
pub fn pass(switches: Switches, image: &[u8], lent: Lent<'_>) -> u32 {
    match switches {
        Some(w) => call_pass!(ownership_pass_switched, image, lent, w),
        None => call_pass!(ownership_pass, image, lent),
    }
}

/// The answer with as much lent as any image of a bench needs; of the states nothing is known.
pub fn answer(switches: Switches, image: &[u8]) -> Outcome {
    let mut output = vec![0; 16 * image.len() + 4096];
    let [mut errors, mut warnings, mut left] = [12, 2, 3].map(|width| vec![0; width * image.len()]);
    let mut totals = [0; 4];
    let lent = Lent { output: &mut output, errors: &mut errors, warnings: &mut warnings, left: &mut left, totals: &mut totals };
    match pass(switches, image, lent) {
        0 => {}
        fault => return Err(fault as u8),
    }
    let [bytes, errors_found, warnings_found, left_found] = totals.map(|n| n as usize);
    output.truncate(bytes);
    let error = |e: &[u32]| Error { kind: e[0], place: e[1], hint: e[2], others: e[4..4 + e[3] as usize].to_vec() };
    Ok(Answer {
        output,
        counts_fit: true,
        errors: errors.chunks(12).take(errors_found).map(error).collect(),
        warnings: warnings.chunks(2).take(warnings_found).map(|w| (w[0], w[1] as usize)).collect(),
        lefts: left.chunks(3).take(left_found).map(|l| (l[0], l[1] as u16, l[2])).collect(),
        states: vec![],
    })
}

/// The same of the earlier library.
#[cfg(before)]
pub fn pass_before(image: &[u8], lent: Lent<'_>) -> u32 {
    call_pass!(before_pass, image, lent)
}

/// 0 or the fault's number.
pub fn room(switches: Switches, image: &[u8], room: &mut u64) -> u32 {
    // the pointers and lengths are those of slices
    unsafe {
        match switches {
            Some(w) => ownership_room_switched(w, image.as_ptr(), image.len(), room),
            None => ownership_room(image.as_ptr(), image.len(), room),
        }
    }
}

/// 0 or the fault's number.
pub fn page(switches: Switches, image: &[u8], page: &mut [u8], written: &mut u64) -> u32 {
    // as above
    unsafe {
        match switches {
            Some(w) => ownership_page_switched(w, image.as_ptr(), image.len(), page.as_mut_ptr(), page.len(), written),
            None => ownership_page(image.as_ptr(), image.len(), page.as_mut_ptr(), page.len(), written),
        }
    }
}
