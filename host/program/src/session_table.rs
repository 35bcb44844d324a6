//! The six by six table of a session report, as a person would draw it.

use dagsumilat::Report;

/// States 1 to 6 of a BGP session (RFC 4271).
const STATES: [&str; 6] = ["Idle", "Connect", "Active", "OpenSent", "OpenConfirm", "Established"];

/// The table with sums, then the three totals.
pub fn drawn(report: &Report) -> String {
    let grid = grid(&report.cells);
    let widths: Vec<usize> = (0..grid[0].len()).map(|column| width(&grid, column)).collect();
    let table: String = grid.iter().map(|row| line(row, &widths)).collect();
    let Report { records, changes, breaks, .. } = report;
    format!(
        "{table}\nrecords: {records}\nstate changes: {changes}\n\
         breaks of the type 12 sequence: {breaks}\n"
    )
}

/// Old states in rows, new ones in columns, and the sums of both.
fn grid(cells: &[[u64; 6]; 6]) -> Vec<Vec<String>> {
    let mut rows = vec![row("old \\ new", STATES, "all")];
    rows.extend(STATES.iter().zip(cells).map(|(name, counts)| row(name, *counts, sum(*counts))));
    let columns: [u128; 6] = std::array::from_fn(|new| sum(cells.map(|counts| counts[new])));
    rows.push(row("all", columns, columns.iter().sum::<u128>()));
    rows
}

fn sum(counts: [u64; 6]) -> u128 {
    counts.into_iter().map(u128::from).sum()
}

fn row(name: &str, middle: [impl ToString; 6], last: impl ToString) -> Vec<String> {
    let mut row = vec![name.to_string()];
    row.extend(middle.iter().map(ToString::to_string));
    row.push(last.to_string());
    row
}

fn width(grid: &[Vec<String>], column: usize) -> usize {
    grid.iter().map(|row| row[column].len()).max().unwrap_or(0)
}

/// The name to the left, the numbers to the right.
fn line(row: &[String], widths: &[usize]) -> String {
    let mut line = format!("{:<width$}", row[0], width = widths[0]);
    for (text, width) in row.iter().zip(widths).skip(1) {
        line.push_str(&format!("  {text:>width$}"));
    }
    line + "\n"
}

#[cfg(test)]
mod tests {
    use super::*;

    #[test]
    fn sums_and_columns() {
        let mut report = Report { records: 12_345, changes: 1_004, ..Report::default() };
        report.cells[2][3] = 1_000;
        report.cells[2][0] = 3;
        report.cells[5][0] = 1;
        let expected = "\
old \\ new    Idle  Connect  Active  OpenSent  OpenConfirm  Established   all
Idle            0        0       0         0            0            0     0
Connect         0        0       0         0            0            0     0
Active          3        0       0      1000            0            0  1003
OpenSent        0        0       0         0            0            0     0
OpenConfirm     0        0       0         0            0            0     0
Established     1        0       0         0            0            0     1
all             4        0       0      1000            0            0  1004

records: 12345
state changes: 1004
breaks of the type 12 sequence: 0
";
        assert_eq!(drawn(&report), expected);
    }

    #[test]
    fn the_largest_numbers_stay_in_their_columns() {
        let report = Report { cells: [[u64::MAX; 6]; 6], ..Report::default() };
        let text = drawn(&report);
        let lines: Vec<&str> = text.lines().take(8).collect();
        assert!(lines.iter().all(|line| line.len() == lines[0].len()), "{text}");
        assert!(lines[7].ends_with(&(36 * u128::from(u64::MAX)).to_string()), "{text}");
    }
}
