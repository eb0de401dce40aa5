//! CSV (RFC 4180).

use std::io::{self, Write};

use csv::{Terminator, WriterBuilder};

/// Writes rows of cells, the head first.
pub fn write<R, C>(rows: impl Iterator<Item = R>, to: &mut impl Write) -> io::Result<()>
where
    R: IntoIterator<Item = C>,
    C: AsRef<[u8]>,
{
    let mut builder = WriterBuilder::new();
    let mut table = builder.terminator(Terminator::CRLF).from_writer(to);
    for row in rows {
        table.write_record(row).map_err(reason)?;
    }
    table.flush()
}

/// Why a row could not be written: as the system says it, so that a closed pipe is still known as one.
fn reason(error: csv::Error) -> io::Error {
    match error.into_kind() {
        csv::ErrorKind::Io(error) => error,
        other => io::Error::other(format!("{other:?}")),
    }
}
