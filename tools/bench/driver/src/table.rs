//! A table as text in columns, or as Markdown.

pub struct Table {
    /// The columns of words, which stand first and to the left; the numbers behind them stand to the right.
    pub words: usize,
    pub heads: Vec<String>,
    pub lines: Vec<Vec<String>>,
}

impl Table {
    /// The table's lines, with the heads.
    pub fn text(&self, markdown: bool) -> Vec<String> {
        if markdown {
            self.in_markdown()
        } else {
            self.in_columns()
        }
    }

    fn in_markdown(&self) -> Vec<String> {
        let numbers = self.heads.len() - self.words;
        let rule = format!("|{}{}", "---|".repeat(self.words), "---:|".repeat(numbers));
        let row = |cells: &Vec<String>| format!("| {} |", cells.join(" | "));
        [row(&self.heads), rule].into_iter().chain(self.lines.iter().map(row)).collect()
    }

    fn in_columns(&self) -> Vec<String> {
        let widths = self.widths();
        let row = |cells: &Vec<String>| {
            let padded: Vec<String> = cells
                .iter()
                .zip(&widths)
                .enumerate()
                .map(|(column, (cell, &width))| self.padded(column, cell, width))
                .collect();
            padded.join("  ").trim_end().to_string()
        };
        std::iter::once(&self.heads).chain(&self.lines).map(row).collect()
    }

    fn widths(&self) -> Vec<usize> {
        let longest = |column: usize, head: &String| {
            self.lines.iter().map(|line| line[column].len()).fold(head.len(), usize::max)
        };
        self.heads.iter().enumerate().map(|(column, head)| longest(column, head)).collect()
    }

    fn padded(&self, column: usize, cell: &str, width: usize) -> String {
        if column < self.words {
            format!("{cell:<width$}")
        } else {
            format!("{cell:>width$}")
        }
    }
}
