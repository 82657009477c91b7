//! Tables in plain text that are markdown too.

/// A table: the first row is its head.
pub struct Table(Vec<Vec<String>>);

impl Table {
    pub fn new(head: &[&str]) -> Table {
        Table(vec![head.iter().map(|cell| cell.to_string()).collect()])
    }

    pub fn row(&mut self, cells: impl IntoIterator<Item = String>) {
        let row: Vec<String> = cells.into_iter().collect();
        assert_eq!(
            row.len(),
            self.0[0].len(),
            "a row has a cell for each column"
        );
        self.0.push(row);
    }

    /// The width of a column.
    fn width(&self, column: usize) -> usize {
        let widths = self.0.iter().map(|row| row[column].chars().count());
        widths.max().unwrap_or(0).max(3)
    }

    /// A row with every cell as wide as its column; the first column to the left, the others to the right.
    fn line(&self, row: &[String]) -> String {
        let cell = |(column, text): (usize, &String)| match (column, self.width(column)) {
            (0, width) => format!(" {text:<width$} |"),
            (_, width) => format!(" {text:>width$} |"),
        };
        format!("|{}", row.iter().enumerate().map(cell).collect::<String>())
    }

    /// The line between the head and the rows.
    fn rule(&self) -> String {
        let cell = |column: usize| match column {
            0 => format!("{}|", "-".repeat(self.width(column) + 2)),
            _ => format!("{}:|", "-".repeat(self.width(column) + 1)),
        };
        format!("|{}", (0..self.0[0].len()).map(cell).collect::<String>())
    }

    pub fn print(&self) {
        println!("{}\n{}", self.line(&self.0[0]), self.rule());
        for row in &self.0[1..] {
            println!("{}", self.line(row));
        }
        println!();
    }
}
