//! The table at the head of the manual, docs/DEVIL.md: for each section the refusals that it tells of.

/// The rows of all tables of a document, each as its cells.
pub fn rows(text: &str) -> Vec<Vec<&str>> {
    let rows = text.lines().filter(|l| l.starts_with("| "));
    rows.map(|l| l.split('|').map(str::trim).collect())
        .collect()
}

/// The numbers of `1, 2, 5` and of `20 to 28, 53`; none where the cell says something else.
pub fn numbers(cell: &str) -> Vec<u32> {
    let spans = cell.split(", ").filter_map(|span| {
        let (first, last) = span.split_once(" to ").unwrap_or((span, span));
        Some(first.parse().ok()?..=last.parse().ok()?)
    });
    spans.flatten().collect()
}

/// The section that a row of the table names, if it is a row of that table.
pub fn section<'a>(row: &[&'a str]) -> Option<&'a str> {
    let (name, link) = row.get(2)?.strip_prefix('[')?.split_once("](")?;
    (row.len() == 5 && link.starts_with('#')).then_some(name)
}

/// The sections that tell of a refusal, in their order.
pub fn sections(manual: &str, refusal: u32) -> Vec<&str> {
    let all = rows(manual);
    let told = all.iter().filter(|r| r.len() == 5);
    told.filter(|r| numbers(r[3]).contains(&refusal))
        .filter_map(|r| section(r))
        .collect()
}
