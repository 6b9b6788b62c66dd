//! Markdown, as docs/ has it.

/// A table; the columns after the first `left` are figures and stand to the right.
pub fn table(left: usize, head: &[&str], rows: &[Vec<String>]) {
    println!("| {} |", head.join(" | "));
    let rules: Vec<_> = (0..head.len()).map(|i| if i < left { "---" } else { "---:" }).collect();
    println!("|{}|", rules.join("|"));
    for row in rows {
        println!("| {} |", row.join(" | "));
    }
    println!();
}

pub fn heading(text: &str) {
    println!("\n## {text}\n");
}

pub fn code(text: impl std::fmt::Display) -> String {
    format!("`{text}`")
}

/// 1234567 as 1,234,567.
pub fn number(n: u64) -> String {
    let digits = n.to_string();
    let parts: Vec<_> = digits.as_bytes().rchunks(3).rev().map(|part| std::str::from_utf8(part).unwrap()).collect();
    parts.join(",")
}
