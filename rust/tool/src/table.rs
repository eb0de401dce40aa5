//! Tables of aligned columns.

/// A column: its title, and on which side its cells are filled up with blanks.
pub struct Column {
    title: &'static str,
    side: Side,
}

enum Side {
    Left,
    Right,
}

/// A column of numbers, which end below each other.
pub const fn numbers(title: &'static str) -> Column {
    Column {
        title,
        side: Side::Left,
    }
}

/// A column of words, which begin below each other.
pub const fn words(title: &'static str) -> Column {
    Column {
        title,
        side: Side::Right,
    }
}

/// The lines of a table: the titles, then the rows. Each row has a cell for each column.
pub fn lines<const N: usize>(columns: &[Column; N], rows: &[[String; N]]) -> Vec<String> {
    let titles = std::array::from_fn(|place| columns[place].title.to_string());
    let all = || std::iter::once(&titles).chain(rows);
    let mut widths = [0; N];
    for row in all() {
        for (width, cell) in widths.iter_mut().zip(row) {
            *width = cell.chars().count().max(*width);
        }
    }
    all().map(|row| line(columns, &widths, row)).collect()
}

/// One line: the cells two blanks apart, and no blanks at the end.
fn line<const N: usize>(columns: &[Column; N], widths: &[usize; N], row: &[String; N]) -> String {
    let mut line = String::new();
    for ((column, &width), cell) in columns.iter().zip(widths).zip(row) {
        line.push_str("  ");
        line.push_str(&match column.side {
            Side::Left => format!("{cell:>width$}"),
            Side::Right => format!("{cell:<width$}"),
        });
    }
    line.truncate(line.trim_end().len());
    line
}

#[cfg(test)]
mod tests {
    use super::{lines, numbers, words};

    #[test]
    fn columns_are_aligned() {
        let columns = [numbers("ID"), words("Name"), words("")];
        let rows = [["0", "pointers", "x"], ["128", "a", ""]];
        let rows = rows.map(|row| row.map(str::to_string));
        assert_eq!(
            lines(&columns, &rows),
            ["   ID  Name", "    0  pointers  x", "  128  a"]
        );
    }
}
