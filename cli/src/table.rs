//! Rows of cells in aligned columns.

#[derive(Clone, Copy, PartialEq, Eq)]
pub enum Align {
    Left,
    Right,
}

/// Every row as a line: each column is as wide as its widest cell, two spaces stand between columns and before the first, and no
/// space at the end. Cells hold plain text, since an escape has no width; lines can be coloured afterwards.
pub fn lines<const COLUMNS: usize>(align: [Align; COLUMNS], rows: &[[String; COLUMNS]]) -> Vec<String> {
    let width = |cell: &String| cell.chars().count();
    let widths: [usize; COLUMNS] =
        std::array::from_fn(|column| rows.iter().map(|row| width(&row[column])).max().unwrap_or(0));
    rows.iter()
        .map(|row| {
            let mut line = String::new();
            for (column, cell) in row.iter().enumerate() {
                let padding = " ".repeat(widths[column] - width(cell));
                let (before, after) = if align[column] == Align::Left { ("", &*padding) } else { (&*padding, "") };
                line += &format!("  {before}{cell}{after}");
            }
            line.trim_end().to_string()
        })
        .collect()
}

#[cfg(test)]
mod tests {
    use super::{lines, Align};

    #[test]
    fn columns_are_as_wide_as_their_widest_cell() {
        let rows = [["a".into(), "12".into()], ["bcd".into(), "3".into()], ["é".into(), String::new()]];
        assert_eq!(lines([Align::Left, Align::Right], &rows), ["  a    12", "  bcd   3", "  é"]);
    }
}
