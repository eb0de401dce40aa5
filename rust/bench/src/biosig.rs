//! biosig, where it is installed: a C library for many formats of signals, SCP-ECG among them.
//!
//! It is looked for while the benchmark runs, so that nothing of it has to be there to build. The calls are those of its
//! `biosig.h`, version 2.5.

use std::ffi::{c_char, c_int, c_long, c_void, CStr, CString};
use std::hint::black_box;
use std::iter::once;
use std::mem::transmute_copy;
use std::os::unix::ffi::OsStrExt;
use std::path::{Path, PathBuf};
use std::ptr::null_mut;
use std::{fs, io};

use compare::rhythm::DEFAULT_TABLE;
use scp::Pointer;

use crate::measure::{Clock, Side, Table};
use crate::plain::Crc;
use crate::reading::{by_library, record_of};
use crate::scratch::Scratch;

const LEADS: usize = 12;
const COUNT: usize = 5000;

const WHOLE: &str = "file, open, check and all 12 leads, beside biosig";
const DECODING: &str = "  the leads' decoding alone, checks aside";
const AMOUNT: (usize, &str) = (LEADS * COUNT, "Msamples");

/// Both lines, or why they are left out.
pub fn all(table: &mut Table) {
    let Some(biosig) = Biosig::find() else {
        return left_out(table, "there is no libbiosig.so.3");
    };
    match written() {
        Ok((_scratch, file)) => beside(table, &biosig, &file),
        Err(error) => left_out(table, &format!("the file is not written: {error}")),
    }
}

fn left_out(table: &mut Table, why: &str) {
    for name in [WHOLE, DECODING] {
        table.left_out(name, why);
    }
}

/// A file read, the record opened and all its leads read; then the reading of the leads without what checking takes. biosig's
/// calls do not come apart, so that its side has the file and the header in it all the same. It gives microvolts, and the
/// record's step is five.
fn beside(table: &mut Table, biosig: &Biosig, file: &Path) {
    let name = CString::new(file.as_os_str().as_bytes()).expect("a name has no 0 in it");
    let record = fs::read(file).expect("it was written");
    let mut samples = vec![0; LEADS * COUNT];
    let mut microvolts = vec![0.0; LEADS * COUNT];
    by_file(file, &mut samples);
    assert_eq!(biosig.read(&name, &mut microvolts), Some(COUNT));
    let is_same = |(&sample, &value): (&i16, &f64)| f64::from(sample) * 5.0 == value;
    assert!(samples.iter().zip(&microvolts).all(is_same));
    let mut by_biosig = || {
        black_box(biosig.read(black_box(&name), &mut microvolts));
    };
    table.line(
        WHOLE,
        AMOUNT,
        || by_file(black_box(file), &mut samples),
        &mut by_biosig,
    );
    let checks = Checks::of(&record);
    let sides = [
        Side::new(|| read_leads(&record, &mut samples)).without(|| judge_leads(&record)),
        Side::new(&mut by_biosig).without(|| assert!(checks.make())),
    ];
    table.line_by(Clock::Thread, DECODING, AMOUNT, sides);
}

/// The record as a file, in a folder that goes with it.
fn written() -> io::Result<(Scratch, PathBuf)> {
    let scratch = Scratch::new()?;
    let file = scratch.folder().join("record.scp");
    fs::write(&file, record_of(LEADS, COUNT, &DEFAULT_TABLE, 2))?;
    Ok((scratch, file))
}

/// Reads a file, and has the library open the record and read its leads.
fn by_file(file: &Path, samples: &mut [i16]) {
    let record = fs::read(file).expect("it was written");
    drop(black_box(scp::open(&record)));
    read_leads(&record, samples);
}

/// Has the library read the leads. Each call judges the whole record first.
fn read_leads(record: &[u8], samples: &mut [i16]) {
    for (place, lead) in (1..).zip(samples.chunks_mut(COUNT)) {
        by_library(record, place, lead);
    }
}

/// Has the library judge the record as often as reading the leads does, and decode nothing. `scp_lead` judges by the very call
/// that `scp_read_lead` starts with, rules 1 to 10. Beside it one compares the room lent with the lead's length, and the other
/// shows a few numbers: nothing that counts here.
fn judge_leads(record: &[u8]) {
    for place in 1..=LEADS {
        let _ = black_box(scp::lead(black_box(record), place));
    }
}

/// The checks that biosig makes when it opens this record, by a loop with a table: its own cannot be left out. They are those
/// of the record and of every section but Section 0, as a debugger shows at its check.
struct Checks<'a> {
    crc: Crc,
    /// The parts that are checked, each with its CRC before it.
    parts: Vec<&'a [u8]>,
}

impl<'a> Checks<'a> {
    fn of(record: &'a [u8]) -> Checks<'a> {
        let pointers = scp::open(record).expect("it is sound");
        let sections = pointers
            .iter()
            .filter(|one| one.id != 0 && one.is_present());
        let section = |one: &Pointer| &record[one.index as usize - 1..][..one.length as usize];
        let checks = Checks {
            crc: Crc::new(),
            parts: once(record).chain(sections.map(section)).collect(),
        };
        assert!(checks.make());
        checks
    }

    /// Whether all checks are right.
    fn make(&self) -> bool {
        let is_right = |part: &&[u8]| {
            let (stored, bytes) = part.split_at(2);
            self.crc.of(black_box(bytes)).to_le_bytes() == stored
        };
        self.parts.iter().all(is_right)
    }
}

// ---- its calls

/// The data that biosig keeps on a file; only biosig looks into it.
type Header = *mut c_void;

/// `RTLD_NOW` of Linux.
const NOW: c_int = 2;

extern "C" {
    fn dlopen(name: *const c_char, mode: c_int) -> *mut c_void;
    fn dlsym(library: *mut c_void, name: *const c_char) -> *mut c_void;
}

/// The calls that are used here.
struct Biosig {
    open: unsafe extern "C" fn(*const c_char, *const c_char, Header) -> Header,
    error: unsafe extern "C" fn(Header) -> c_int,
    leads: unsafe extern "C" fn(Header) -> c_long,
    samples: unsafe extern "C" fn(Header) -> usize,
    read: unsafe extern "C" fn(*mut f64, usize, usize, Header) -> usize,
    close: unsafe extern "C" fn(Header) -> c_int,
    drop: unsafe extern "C" fn(Header),
}

impl Biosig {
    /// Looks for the library.
    fn find() -> Option<Biosig> {
        // SAFETY: the name ends in 0. Biosig alone answers for what it does when it is loaded.
        let library = unsafe { dlopen(c"libbiosig.so.3".as_ptr(), NOW) };
        if library.is_null() {
            return None;
        }
        // SAFETY: each field has the type that biosig.h says for the call of this name.
        unsafe {
            Some(Biosig {
                open: call(library, c"sopen")?,
                error: call(library, c"serror2")?,
                leads: call(library, c"biosig_get_number_of_channels")?,
                samples: call(library, c"biosig_get_number_of_samples")?,
                read: call(library, c"sread")?,
                close: call(library, c"sclose")?,
                drop: call(library, c"destructHDR")?,
            })
        }
    }

    /// Opens a file and reads all its leads, one after another, in microvolts; answers how many samples each has.
    fn read(&self, file: &CString, out: &mut [f64]) -> Option<usize> {
        // SAFETY: the names end in 0; the header is biosig's own until it is dropped; the room is as long as what it writes.
        unsafe {
            let header = (self.open)(file.as_ptr(), c"r".as_ptr(), null_mut());
            let count = (self.samples)(header);
            let leads = usize::try_from((self.leads)(header)).unwrap_or(usize::MAX);
            let fits = (self.error)(header) == 0 && leads.saturating_mul(count) <= out.len();
            if fits {
                (self.read)(out.as_mut_ptr(), 0, count, header);
            }
            let sound = fits && (self.error)(header) == 0;
            (self.close)(header);
            (self.drop)(header);
            sound.then_some(count)
        }
    }
}

/// A call of a library.
///
/// # Safety
/// `F` is a function pointer of the type that the call has.
unsafe fn call<F>(library: *mut c_void, name: &CStr) -> Option<F> {
    assert_eq!(size_of::<F>(), size_of::<*mut c_void>());
    // SAFETY: the name ends in 0, and the library stays loaded. A pointer that is not null is to the call, as `F` says.
    let found = unsafe { dlsym(library, name.as_ptr()) };
    (!found.is_null()).then(|| unsafe { transmute_copy(&found) })
}
