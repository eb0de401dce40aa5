//! Row 7: the code structures of Section 2.

use judge::CodeFault;

use crate::text::counted;

pub fn words(fault: &CodeFault) -> String {
    match fault {
        CodeFault::BaseCode { code, prefix_bits } => {
            format!("base code 0x{code:X} does not fit its {prefix_bits}-bit prefix")
        }
        CodeFault::ShortCode {
            code_bits,
            prefix_bits,
        } => {
            let code = counted((*code_bits).into(), "bit");
            format!("the code has {code}, fewer than its prefix, {prefix_bits}")
        }
        CodeFault::SwitchRemainder(bits) => {
            let bits = counted((*bits).into(), "bit");
            format!("switches tables, and has a remainder of {bits}")
        }
        CodeFault::SwitchTo { table, tables } => {
            format!("switches to table {table}; {}", existing(*tables))
        }
        CodeFault::Prefixes { own, place, other } if own == other => {
            format!("prefix {own} is that of structure {place}, too")
        }
        CodeFault::Prefixes { own, place, other } if own.starts_with(other) => {
            format!("prefix {own} begins with that of structure {place}, {other}")
        }
        CodeFault::Prefixes { own, place, other } => {
            format!("prefix {own} begins that of structure {place}, {other}")
        }
    }
}

/// The tables that there are.
fn existing(tables: usize) -> String {
    match tables {
        1 => "only table 1 exists".to_string(),
        2 => "only 1 and 2 exist".to_string(),
        _ => format!("only 1 to {tables} exist"),
    }
}
