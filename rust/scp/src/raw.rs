//! The C interface as it is, call for call: `rust/include/scp.h` in Rust's words. The header says what each call answers. The
//! calls that room is lent to are here on slices too, with the same answers.

use crate::Job;

/// The most pointers that a record has.
pub const POINTERS_MAX: usize = 64;

/// The numbers that [`scp_open`] asks room for: three for each pointer.
pub const POINTERS_ROOM: usize = 3 * POINTERS_MAX;

/// The answer to opening a record.
#[repr(C)]
#[derive(Clone, Copy, Debug, PartialEq, Eq)]
pub struct ScpOpened {
    /// 0, or the refusal.
    pub refusal: u8,
    /// How many pointers were answered.
    pub count: u32,
}

/// A part of the bytes that were lent.
#[repr(C)]
#[derive(Clone, Copy, Debug, PartialEq, Eq)]
pub struct ScpPart {
    /// 0, or the refusal.
    pub refusal: u8,
    /// Where the part starts, from 0.
    pub start: usize,
    /// How many bytes it has.
    pub length: usize,
}

/// A step of the walk over the fields of Section 1.
#[repr(C)]
#[derive(Clone, Copy, Debug, PartialEq, Eq)]
pub struct ScpStep {
    /// 1 if a field was shown, 0 at the end.
    pub more: u8,
    /// The field's tag.
    pub tag: u8,
    /// Where its bytes start in the section, from 0.
    pub start: usize,
    /// How many bytes it has.
    pub length: usize,
    /// Where the next step is to be taken.
    pub next: usize,
}

/// A lead that was read.
#[repr(C)]
#[derive(Clone, Copy, Debug, Default, PartialEq, Eq)]
pub struct ScpLead {
    /// 0, or the refusal.
    pub refusal: u8,
    /// The lead's ID.
    pub id: u8,
    /// The flags of Section 3.
    pub flags: u8,
    /// The step of a sample in nanovolts.
    pub step: u16,
    /// The interval between two samples in microseconds.
    pub interval: u16,
    /// The number of the first sample.
    pub first: u32,
    /// How many samples there are.
    pub count: u32,
    /// How many code structures were compared.
    pub compared: u32,
}

/// A record's description of a lead, its stream unread.
#[repr(C)]
#[derive(Clone, Copy, Debug, Default, PartialEq, Eq)]
pub struct ScpEntry {
    /// 0, or the refusal.
    pub refusal: u8,
    /// The lead's ID.
    pub id: u8,
    /// The flags of Section 3.
    pub flags: u8,
    /// The order of the differences in Section 6.
    pub order: u8,
    /// The step of a sample in nanovolts.
    pub step: u16,
    /// The interval between two samples in microseconds.
    pub interval: u16,
    /// The number of the first sample.
    pub first: u32,
    /// The number of the last sample.
    pub last: u32,
    /// How many leads the record has.
    pub leads: u32,
    /// The bytes of the lead's stream in Section 6.
    pub bytes: u32,
}

/// A lead that was coded.
#[repr(C)]
#[derive(Clone, Copy, Debug, Default, PartialEq, Eq)]
pub struct ScpCoded {
    /// 0, or the refusal.
    pub refusal: u8,
    /// How many bytes the stream has.
    pub bytes: u32,
    /// How many bits its codes take.
    pub bits: u32,
}

/// A record that was written.
#[repr(C)]
#[derive(Clone, Copy, Debug, Default, PartialEq, Eq)]
pub struct ScpWritten {
    /// 0, or the refusal.
    pub refusal: u8,
    /// How many bytes the record has.
    pub bytes: u32,
}

/// An index that a record was added to, or that two were merged into.
#[repr(C)]
#[derive(Clone, Copy, Debug, Default, PartialEq, Eq)]
pub struct ScpIndexed {
    /// 0, or the refusal.
    pub refusal: u8,
    /// How many bytes of the index are in use.
    pub used: usize,
}

/// An entry of an index.
#[repr(C)]
#[derive(Clone, Copy, Debug, Default, PartialEq, Eq)]
pub struct ScpIndexEntry {
    /// 1 if an entry was shown, 0 where there is none.
    pub more: u8,
    /// The month, 1 to 12.
    pub month: u8,
    /// The day, 1 to 31.
    pub day: u8,
    /// How many leads the record has.
    pub leads: u8,
    /// The year.
    pub year: u16,
    /// Where the identifier's bytes start in the index, from 0.
    pub start: usize,
    /// How many bytes it has.
    pub length: usize,
    /// Where the next step is to be taken.
    pub next: usize,
}

extern "C" {
    /// The check of `n` bytes.
    pub fn scp_crc(p: *const u8, n: usize) -> u16;
    /// Opens a record; room for [`POINTERS_ROOM`] numbers is lent.
    pub fn scp_open(record: *const u8, n: usize, pointers: *mut u32) -> ScpOpened;
    /// Finds a field by tag and occurrence.
    pub fn scp_field(record: *const u8, n: usize, tag: u8, occurrence: usize) -> ScpPart;
    /// Compares two identifiers.
    pub fn scp_same_identifier(a: *const u8, an: usize, b: *const u8, bn: usize) -> u8;
    /// Finds Section 1.
    pub fn scp_walk_start(record: *const u8, n: usize) -> ScpPart;
    /// Takes a step over the fields of Section 1.
    pub fn scp_walk_step(section: *const u8, n: usize, at: usize) -> ScpStep;
    /// Reads the lead at a place, from 1.
    pub fn scp_read_lead(
        record: *const u8,
        n: usize,
        place: usize,
        out: *mut i16,
        out_n: usize,
        work: *mut i16,
        work_n: usize,
    ) -> ScpLead;
    /// Shows what the record says of the lead at a place, from 1.
    pub fn scp_lead(record: *const u8, n: usize, place: usize) -> ScpEntry;
    /// Whether the rule of a row, 1 to 9, is broken, asked alone.
    pub fn scp_breaks(record: *const u8, n: usize, row: u8) -> u8;
    /// Codes the samples of a lead.
    pub fn scp_encode_lead(
        section2: *const u8,
        n2: usize,
        samples: *const i16,
        n: usize,
        order: u8,
        work: *mut u8,
        work_n: usize,
        out: *mut u8,
        out_n: usize,
    ) -> ScpCoded;
    /// Writes a record.
    pub fn scp_write_record(
        section1: *const u8,
        n1: usize,
        section2: *const u8,
        n2: usize,
        version: u8,
        flags: u8,
        step: u16,
        interval: u16,
        order: u8,
        firsts: *const u32,
        nf: usize,
        counts: *const u32,
        nc: usize,
        ids: *const u8,
        ni: usize,
        samples: *const i16,
        ns: usize,
        work: *mut u8,
        work_n: usize,
        out: *mut u8,
        out_n: usize,
    ) -> ScpWritten;
    /// Adds a record to an index.
    pub fn scp_index_add(
        index: *mut u8,
        n: usize,
        used: usize,
        record: *const u8,
        m: usize,
    ) -> ScpIndexed;
    /// Finds the entries of an identifier.
    pub fn scp_index_find(
        index: *const u8,
        n: usize,
        used: usize,
        identifier: *const u8,
        k: usize,
    ) -> ScpPart;
    /// Shows the entry at a place of an index.
    pub fn scp_index_step(index: *const u8, n: usize, at: usize) -> ScpIndexEntry;
    /// Merges two indexes.
    pub fn scp_index_merge(
        a: *const u8,
        an: usize,
        b: *const u8,
        bn: usize,
        out: *mut u8,
        out_n: usize,
    ) -> ScpIndexed;
}

// ---- the calls that room is lent to, on slices

/// [`scp_read_lead`] on slices.
pub fn read_lead(record: &[u8], place: usize, out: &mut [i16], work: &mut [i16]) -> ScpLead {
    // SAFETY: all three are slices lent for the call, which only reads the first; no two of them share memory.
    unsafe {
        scp_read_lead(
            record.as_ptr(),
            record.len(),
            place,
            out.as_mut_ptr(),
            out.len(),
            work.as_mut_ptr(),
            work.len(),
        )
    }
}

/// [`scp_encode_lead`] on slices.
pub fn encode_lead(
    section2: &[u8],
    samples: &[i16],
    order: u8,
    work: &mut [u8],
    out: &mut [u8],
) -> ScpCoded {
    // SAFETY: all four are slices lent for the call, which only reads the first two; no two of them share memory that it
    // writes to.
    unsafe {
        scp_encode_lead(
            section2.as_ptr(),
            section2.len(),
            samples.as_ptr(),
            samples.len(),
            order,
            work.as_mut_ptr(),
            work.len(),
            out.as_mut_ptr(),
            out.len(),
        )
    }
}

/// [`scp_write_record`] on slices.
pub fn write_record(job: &Job, work: &mut [u8], out: &mut [u8]) -> ScpWritten {
    // SAFETY: all are slices lent for the call, which only reads those of the job; no two of them share memory that it
    // writes to.
    unsafe {
        scp_write_record(
            job.section1.as_ptr(),
            job.section1.len(),
            job.section2.as_ptr(),
            job.section2.len(),
            job.version,
            job.flags,
            job.step,
            job.interval,
            job.order,
            job.firsts.as_ptr(),
            job.firsts.len(),
            job.counts.as_ptr(),
            job.counts.len(),
            job.ids.as_ptr(),
            job.ids.len(),
            job.samples.as_ptr(),
            job.samples.len(),
            work.as_mut_ptr(),
            work.len(),
            out.as_mut_ptr(),
            out.len(),
        )
    }
}

/// [`scp_index_add`] on slices.
pub fn index_add(index: &mut [u8], used: usize, record: &[u8]) -> ScpIndexed {
    // SAFETY: both are slices lent for the call, which only reads the second; they share no memory.
    unsafe {
        scp_index_add(
            index.as_mut_ptr(),
            index.len(),
            used,
            record.as_ptr(),
            record.len(),
        )
    }
}

/// [`scp_index_merge`] on slices.
pub fn index_merge(a: &[u8], b: &[u8], out: &mut [u8]) -> ScpIndexed {
    // SAFETY: all three are slices lent for the call, which only reads the first two; no two of them share memory that it
    // writes to.
    unsafe {
        scp_index_merge(
            a.as_ptr(),
            a.len(),
            b.as_ptr(),
            b.len(),
            out.as_mut_ptr(),
            out.len(),
        )
    }
}
