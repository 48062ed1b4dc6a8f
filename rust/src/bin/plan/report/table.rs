//! The report as a table of text.
use super::Report;
use std::fmt::Write;

/// Between columns.
const GAP: &str = "  ";

impl Report {
    pub fn table(&self) -> String {
        let mut text = "asked\n".to_string();
        for equation in &self.asked {
            text += &format!("{GAP}{equation}\n");
        }
        if !self.rows.is_empty() {
            text.push('\n');
            rows(self, &mut text);
        }
        text += &format!("\n{}\n{}\n", self.counts, self.verdict);
        for line in &self.advice {
            text += &format!("{line}\n");
        }
        text
    }
}

/// The headings and the rows. The ways are last, one below the other.
fn rows(report: &Report, text: &mut String) {
    let mut lines = vec![(report.columns.clone(), Vec::new())];
    for (i, row) in report.rows.iter().enumerate() {
        let mut cells = vec![(i + 1).to_string()];
        cells.extend(row.groups.iter().cloned());
        cells.extend([row.listed.clone(), row.open.clone()]);
        let mut ways = row.ways.iter().cloned();
        cells.extend(ways.next());
        lines.push((cells, ways.collect()));
    }
    let before = report.columns.len() - 1;
    let wide = |column: usize| {
        let cells = lines.iter().map(|(cells, _)| cells[column].chars().count());
        cells.max().unwrap_or(0)
    };
    let widths: Vec<usize> = (0..before).map(wide).collect();
    // The places' column begins after all others.
    let margin: usize = widths.iter().map(|width| width + GAP.len()).sum();
    // Numbers stand at the right.
    let is_number = |column: usize| column == 0 || report.columns[column] == "listed";
    for (cells, ways) in &lines {
        let mut line = String::new();
        for (column, width) in widths.iter().enumerate() {
            let cell = &cells[column];
            let _ = match is_number(column) {
                true => write!(line, "{cell:>width$}{GAP}"),
                false => write!(line, "{cell:width$}{GAP}"),
            };
        }
        if let Some(first) = cells.get(before) {
            line += first;
        }
        *text += line.trim_end();
        text.push('\n');
        for way in ways {
            *text += &format!("{:margin$}{way}\n", "");
        }
    }
}
