//! Tables in Markdown: the port's figure, and for each other side its figure and the ratio.

use crate::Side;

/// A figure, or why there is none.
#[derive(Clone, Copy)]
pub enum Cell {
    Figure(f64),
    Not(&'static str),
}

pub const ABSENT: Cell = Cell::Not("-");

pub fn head(what: &str, unit: &str, others: &[Side]) {
    let columns: String = others.iter().map(|side| format!(" {0}, {unit} | port/{0} |", side.title())).collect();
    println!("\n| {what} | port, {unit} |{columns}");
    println!("|---|---:|{}", "---:|---:|".repeat(others.len()));
}

pub fn row(what: &str, port: Cell, others: &[Cell]) {
    let ratio = |other: &Cell| match (port, other) {
        (Cell::Figure(port), Cell::Figure(other)) if *other > 0.0 => format!("{:.3}", port / other),
        _ => "-".to_string(),
    };
    let columns: String = others.iter().map(|cell| format!(" {} | {} |", shown(cell), ratio(cell))).collect();
    println!("| {what} | {} |{columns}", shown(&port));
}

fn shown(cell: &Cell) -> String {
    match cell {
        Cell::Figure(figure) => format!("{figure:.0}"),
        Cell::Not(why) => why.to_string(),
    }
}
