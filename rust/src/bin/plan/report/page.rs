//! The report as one page of HTML, without scripts and without anything from elsewhere.
use super::{Report, Row};

/// How every page begins: nothing may be loaded, and a phone shows it as wide as it is.
const HEAD: &str = include_str!("head.html");
/// How it looks, on a screen, on a phone and on paper.
const STYLE: &str = include_str!("page.css");

impl Report {
    pub fn page(&self, title: &str) -> String {
        let all = |tag: &str, lines: &[String]| -> String {
            let lines = lines.iter().map(|line| element(tag, line));
            lines.collect()
        };
        let title = element("title", title);
        let asked = all("li", &self.asked);
        let rows = rows(self);
        let counts = element("p", &self.counts);
        let kind = if self.is_final { "all" } else { "unfinished" };
        let verdict = escaped(&self.verdict);
        let advice = all("p", &self.advice);
        format!(
            "{HEAD}{title}<style>\n{STYLE}</style>\n</head>\n<body>\n\
             <h1>asked</h1>\n<ul>\n{asked}</ul>\n{rows}{counts}\
             <div class=\"{kind}\">\n<p><strong>{verdict}</strong></p>\n{advice}</div>\n\
             </body>\n</html>\n"
        )
    }
}

fn rows(report: &Report) -> String {
    if report.rows.is_empty() {
        return String::new();
    }
    let columns = report.columns.iter();
    let heading: String = columns.map(|c| element("th scope=\"col\"", c)).collect();
    let rows = report.rows.iter().enumerate();
    let rows: String = rows.map(|(i, r)| row(&report.columns, i, r)).collect();
    format!("<table>\n<thead>\n<tr>\n{heading}</tr>\n</thead>\n<tbody>\n{rows}</tbody>\n</table>\n")
}

/// Each cell has its column's heading, which a phone shows beside it.
fn row(columns: &[String], i: usize, row: &Row) -> String {
    let mut cells = vec![(i + 1).to_string()];
    cells.extend(row.groups.iter().cloned());
    cells.extend([row.listed.clone(), row.open.clone()]);
    let mut html = String::new();
    for (column, cell) in columns.iter().zip(&cells) {
        let tag = format!("td data-column=\"{}\"", escaped(column));
        html += &element(&tag, cell);
    }
    let ways: String = row.ways.iter().map(|way| element("div", way)).collect();
    format!("<tr>\n{html}<td data-column=\"places\">\n{ways}</td>\n</tr>\n")
}

/// `<tag>text</tag>`, where the tag may have attributes.
fn element(tag: &str, text: &str) -> String {
    let name = tag.split(' ').next().unwrap_or(tag);
    format!("<{tag}>{}</{name}>\n", escaped(text))
}

fn escaped(text: &str) -> String {
    let mut html = String::new();
    for character in text.chars() {
        match character {
            '&' => html += "&amp;",
            '<' => html += "&lt;",
            '>' => html += "&gt;",
            '"' => html += "&quot;",
            character => html.push(character),
        }
    }
    html
}
