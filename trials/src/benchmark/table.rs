//! Markdown tables, with the columns made even so that they read well as text.

pub struct Table {
    rows: Vec<Vec<String>>,
}

impl Table {
    pub fn new(titles: &[&str]) -> Table {
        Table { rows: vec![titles.iter().map(|title| title.to_string()).collect()] }
    }

    pub fn row(&mut self, cells: Vec<String>) {
        self.rows.push(cells);
    }

    /// The first column holds words, the others hold numbers and go to the right.
    pub fn text(&self) -> String {
        let columns = self.rows[0].len();
        let width = |column: usize| self.rows.iter().map(|row| row[column].chars().count()).max();
        let widths: Vec<usize> = (0..columns).map(|column| width(column).unwrap_or(0)).collect();
        let mut text = String::new();
        for (number, row) in self.rows.iter().enumerate() {
            let cells = row.iter().zip(&widths).enumerate();
            let cells = cells.map(|(column, (cell, width))| match column {
                0 => format!("| {cell:<width$} "),
                _ => format!("| {cell:>width$} "),
            });
            text.push_str(&format!("{}|\n", cells.collect::<String>()));
            if number == 0 {
                text.push_str(&rule(&widths));
            }
        }
        text
    }

    pub fn print(&self) {
        println!("{}", self.text());
    }
}

/// The line under the titles.
fn rule(widths: &[usize]) -> String {
    let cells = widths.iter().enumerate().map(|(column, width)| match column {
        0 => format!("| {} ", "-".repeat(*width)),
        _ => format!("| {}: ", "-".repeat(width - 1)),
    });
    format!("{}|\n", cells.collect::<String>())
}

#[cfg(test)]
mod tests {
    use super::Table;

    #[test]
    fn columns_are_even() {
        let mut table = Table::new(&["call", "µs"]);
        table.row(vec!["a commit".to_string(), "1.25".to_string()]);
        let expected = "| call     |   µs |\n| -------- | ---: |\n| a commit | 1.25 |\n";
        assert_eq!(table.text(), expected);
    }
}
