//! Tables of a page, and the numbers in them.

use std::fmt;

use crate::race::Figure;

/// What stands in a table.
pub enum Cell {
    Text(String),
    Figure(Figure),
}

impl From<String> for Cell {
    fn from(text: String) -> Cell {
        Cell::Text(text)
    }
}

impl From<Figure> for Cell {
    fn from(figure: Figure) -> Cell {
        Cell::Figure(figure)
    }
}

/// A table in Markdown. Its first row is the head; columns but the first stand to the right. The last one is the spread of a row's figures, the
/// greatest of them.
pub struct Table(Vec<Vec<String>>);

impl Table {
    pub fn new(head: impl IntoIterator<Item = impl ToString>) -> Table {
        Table(vec![head.into_iter().map(|cell| cell.to_string()).chain(["spread".to_string()]).collect()])
    }

    pub fn row(&mut self, name: impl ToString, cells: impl IntoIterator<Item = impl Into<Cell>>) {
        let (mut row, mut spread) = (vec![name.to_string()], None);
        for cell in cells {
            row.push(match cell.into() {
                Cell::Text(text) => text,
                Cell::Figure(figure) => {
                    spread = Some(figure.spread.max(spread.unwrap_or(0.0)));
                    number(figure.value)
                }
            });
        }
        row.push(spread.map_or(String::new(), |spread| format!("+{:.0}%", 100.0 * spread)));
        self.0.push(row);
    }

    fn width(&self, column: usize) -> usize {
        self.0.iter().map(|row| row[column].chars().count()).max().unwrap_or(0)
    }
}

impl fmt::Display for Table {
    fn fmt(&self, f: &mut fmt::Formatter<'_>) -> fmt::Result {
        let widths: Vec<usize> = (0..self.0[0].len()).map(|column| self.width(column).max(2)).collect();
        for (number, row) in self.0.iter().enumerate() {
            write!(f, "| {:width$} |", row[0], width = widths[0])?;
            for (cell, width) in row.iter().zip(&widths).skip(1) {
                write!(f, " {cell:>width$} |")?;
            }
            writeln!(f)?;
            if number == 0 {
                write!(f, "|{:-<width$}|", "", width = widths[0] + 2)?;
                widths[1..].iter().try_for_each(|width| write!(f, "{:-<width$}:|", "", width = width + 1))?;
                writeln!(f)?;
            }
        }
        Ok(())
    }
}

/// A number with three digits or so, and commas between thousands.
fn number(x: f64) -> String {
    match x {
        _ if x < 9.995 => format!("{x:.2}"),
        _ if x < 99.95 => format!("{x:.1}"),
        _ => thousands(x.round() as u64),
    }
}

pub fn thousands(n: u64) -> String {
    match n / 1000 {
        0 => n.to_string(),
        more => format!("{},{:03}", thousands(more), n % 1000),
    }
}
