//! What a page of the documentation shows: its blocks and its tables.

/// The titles and the lines of the blocks between ``` marks.
pub fn blocks(page: &str) -> Vec<(&str, Vec<&str>)> {
    let mut blocks = Vec::new();
    let mut lines = page.lines();
    while let Some(line) = lines.next() {
        if let Some(title) = line.strip_prefix("```") {
            let block = lines.by_ref().take_while(|line| *line != "```");
            blocks.push((title, block.collect()));
        }
    }
    blocks
}

/// The cells of a line of a table.
fn cells(line: &str) -> Vec<&str> {
    let line = line
        .strip_prefix('|')
        .and_then(|line| line.strip_suffix('|'));
    let cells = line.expect("a line of a table").split('|');
    cells.map(str::trim).collect()
}

/// The cells of the table whose first line begins so: that line, then the rows.
pub fn table<'a>(page: &'a str, head: &str) -> Vec<Vec<&'a str>> {
    let lines = page.lines().skip_while(|line| !line.starts_with(head));
    let mut rows: Vec<Vec<&str>> = lines
        .take_while(|line| line.starts_with('|'))
        .map(cells)
        .collect();
    assert!(rows.len() > 2, "no table {head}");
    rows.remove(1);
    rows
}
