//! Safe calls of the proved SCP-ECG library.
//!
//! The library itself is written and proved in Rattle and comes as an archive with a C interface
//! (`rust/include/scp.h`). This crate lends it slices, gives its answers the types of Rust, and adds no judgement of its
//! own: whether a record is accepted, and every number answered, is the library's word.
//!
//! ```no_run
//! let record = std::fs::read("record.scp")?;
//! match scp::fields(&record) {
//!     Ok(fields) => {
//!         for field in fields {
//!             println!("tag {}: {:?}", field.tag, &record[field.range]);
//!         }
//!     }
//!     Err(refusal) => println!("refused: {refusal}"),
//! }
//! # Ok::<(), std::io::Error>(())
//! ```
//!
//! A lead is read by its place, and comes with the step that its samples are multiples of:
//!
//! ```no_run
//! let record = std::fs::read("record.scp")?;
//! match scp::samples(&record, 1) {
//!     Ok((lead, samples)) => println!("{samples:?}, each times {} nV", lead.step),
//!     Err(refusal) => println!("refused: {refusal}"),
//! }
//! # Ok::<(), std::io::Error>(())
//! ```
//!
//! Samples are coded by the data of a Section 2, here the default table, into the shortest stream that is read to them:
//!
//! ```no_run
//! match scp::shortest(&[0x1F, 0x4E], &[10, 12, 13, 15], 2) {
//!     Ok((stream, bits)) => println!("{stream:02X?}, {bits} bits"),
//!     Err(refusal) => println!("refused: {refusal}"),
//! }
//! ```
//!
//! A whole record is written from the data of Sections 1 and 2 and the samples of its leads:
//!
//! ```no_run
//! let job = scp::Job {
//!     section1: &[
//!         2, 4, 0, b'0', b'0', b'7', 0, 14, 0, 0, 25, 4, 0, 0xE8, 7, 3, 14, 26, 3, 0, 9, 26, 53, 255, 0, 0,
//!     ],
//!     section2: &[0x1F, 0x4E],
//!     version: 13,
//!     flags: 0,
//!     step: 5000,
//!     interval: 2000,
//!     order: 2,
//!     firsts: &[1],
//!     counts: &[4],
//!     ids: &[1],
//!     samples: &[10, 12, 13, 15],
//! };
//! match scp::written(&job) {
//!     Ok(record) => std::fs::write("record.scp", record)?,
//!     Err(refusal) => println!("refused: {refusal}"),
//! }
//! # Ok::<(), std::io::Error>(())
//! ```
//!
//! An index has an entry for each record, sorted by identifier and date, and shows all records of a patient:
//!
//! ```no_run
//! let record = std::fs::read("record.scp")?;
//! let mut index = vec![0; 1000 * scp::ENTRY_MAX];
//! let used = scp::index_add(&mut index, 0, &record).expect("the record is sound");
//! let found = scp::index_find(&index, used, b"007").expect("the index was made by the library");
//! for entry in scp::index_entries(found) {
//!     println!("{}-{:02}-{:02}: {} leads", entry.year, entry.month, entry.day, entry.leads);
//! }
//! # Ok::<(), std::io::Error>(())
//! ```

#![warn(missing_docs)]

mod encoding;
mod fields;
mod index;
mod leads;
pub mod raw;
mod record;
mod refusal;
mod writing;

pub use encoding::{encode_lead, shortest, Coded, STREAM_MAX, TABLES_MAX};
pub use fields::{
    field, fields, same_identifier, walk_start, walk_step, Field, Fields, Step, FIRST_FIELD,
};
pub use index::{
    index_add, index_entries, index_find, index_merge, index_step, IndexEntries, IndexEntry,
    ENTRY_MAX,
};
pub use leads::{lead, leads, read_lead, samples, Entry, Lead, LEADS_MAX, SAMPLES_MAX};
pub use record::{breaks, crc, open, Pointer, RECORD_MAX};
pub use refusal::{Given, NoRefusal, Refusal};
pub use writing::{write_record, written, Job};
