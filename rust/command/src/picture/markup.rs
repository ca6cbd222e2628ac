//! Text in HTML and SVG.

/// Text as it stands in HTML and SVG, between tags and in quotes. A control character, which neither of them allows, becomes the
/// replacement character.
pub(crate) fn escaped(text: &str) -> String {
    let mut out = String::with_capacity(text.len());
    for character in text.chars() {
        match character {
            '&' => out.push_str("&amp;"),
            '<' => out.push_str("&lt;"),
            '>' => out.push_str("&gt;"),
            '"' => out.push_str("&quot;"),
            '\'' => out.push_str("&#39;"),
            '\u{fffe}' | '\u{ffff}' => out.push('\u{fffd}'),
            other if other.is_control() => out.push('\u{fffd}'),
            other => out.push(other),
        }
    }
    out
}

/// A whole number with a minus sign as it is printed, not a hyphen.
pub(crate) fn signed(number: i64) -> String {
    number.to_string().replace('-', "−")
}

#[cfg(test)]
mod tests {
    use super::*;

    #[test]
    fn what_means_something_is_escaped() {
        assert_eq!(escaped("a&b<c>\"d\" 'e'\u{1}\nü"), "a&amp;b&lt;c&gt;&quot;d&quot; &#39;e&#39;\u{fffd}\u{fffd}ü");
        assert_eq!(signed(-3), "−3");
    }
}
