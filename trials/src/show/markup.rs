//! Text inside of markup, and in lines of a terminal.

/// Text as it may stand between tags and in quotes. Control characters, which a malformed line
/// may hold and XML may not, are shown as a mark.
pub fn escaped(text: &str) -> String {
    let mut out = String::with_capacity(text.len());
    for character in text.chars() {
        match character {
            '&' => out.push_str("&amp;"),
            '<' => out.push_str("&lt;"),
            '>' => out.push_str("&gt;"),
            '"' => out.push_str("&quot;"),
            '\t' => out.push(' '),
            control if control.is_control() => out.push('\u{fffd}'),
            other => out.push(other),
        }
    }
    out
}

/// A call may be 4,096 bytes long; nobody reads that in a list.
pub fn shortened(text: &str, most: usize) -> String {
    if text.chars().count() <= most {
        return text.to_string();
    }
    let kept: String = text.chars().take(most.saturating_sub(2)).collect();
    format!("{kept}..")
}

/// Parts one after another in as few lines as the columns allow.
pub fn flowing(parts: &[&str], between: &str, columns: usize) -> String {
    let mut lines: Vec<String> = Vec::new();
    for part in parts {
        match lines.last_mut() {
            Some(line)
                if line.chars().count() + between.len() + part.chars().count() <= columns =>
            {
                line.push_str(between);
                line.push_str(part);
            }
            _ => lines.push(part.to_string()),
        }
    }
    lines.into_iter().map(|line| line + "\n").collect()
}

/// A malformed line may hold what would move the cursor.
pub fn without_controls(text: &str) -> String {
    text.chars().map(|one| if one.is_control() { '\u{fffd}' } else { one }).collect()
}
