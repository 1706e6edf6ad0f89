//! Columns under each other.

/// A headline, and under it the rows with their header, if there are rows.
pub fn table<const N: usize>(
    headline: &str,
    header: [&str; N],
    rows: impl Iterator<Item = [String; N]>,
) -> String {
    let mut lines = vec![header.map(str::to_string)];
    lines.extend(rows);
    let mut table = format!("{headline}\n");
    if lines.len() > 1 {
        let widths = widths(&lines);
        table.extend(lines.iter().map(|cells| line(cells, widths)));
    }
    table
}

fn widths<const N: usize>(lines: &[[String; N]]) -> [usize; N] {
    std::array::from_fn(|column| {
        let cells = lines.iter().map(|cells| cells[column].len());
        cells.max().unwrap_or(0)
    })
}

fn line<const N: usize>(cells: &[String; N], widths: [usize; N]) -> String {
    let cells = cells.iter().zip(widths);
    let padded: String = cells
        .map(|(cell, width)| format!("  {cell:width$}"))
        .collect();
    format!("{}\n", padded.trim_end())
}
