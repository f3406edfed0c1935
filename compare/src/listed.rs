//! The differences that docs/DIFFERENCES.md lists: the lines of its blocks fenced
//! with ```` ```compare ````, each `REQUEST | the oracle's answer | replay's answer`.
//! A `*` in any of the three stands for any characters.

use std::path::Path;

pub struct Listed(Vec<[String; 3]>);

impl Listed {
    /// The listed differences; none if the file is not there.
    pub fn from_file(path: &Path) -> Self {
        Self::from_text(&std::fs::read_to_string(path).unwrap_or_default())
    }

    fn from_text(text: &str) -> Self {
        let mut listed = Vec::new();
        let mut inside = false;
        for line in text.lines() {
            if line.starts_with("```") {
                inside = line.trim_end() == "```compare";
            } else if inside {
                let parts: Vec<String> = line.split('|').map(|p| p.trim().to_owned()).collect();
                listed.extend(<[String; 3]>::try_from(parts));
            }
        }
        Self(listed)
    }

    pub fn has(&self, request: &[u8], due: &[u8], said: &[u8]) -> bool {
        let fits = |pattern: &String, text| matches(pattern.as_bytes(), text);
        self.0.iter().any(|[r, d, s]| fits(r, request) && fits(d, due) && fits(s, said))
    }
}

fn matches(pattern: &[u8], text: &[u8]) -> bool {
    match pattern.split_first() {
        None => text.is_empty(),
        Some((b'*', rest)) => (0..=text.len()).any(|skipped| matches(rest, &text[skipped..])),
        Some((first, rest)) => text.first() == Some(first) && matches(rest, &text[1..]),
    }
}

#[cfg(test)]
mod tests {
    use super::*;

    #[test]
    fn only_fenced_lines_count() {
        let text = "kind 31 | 0 | 1\n```compare\nkind 3*30 | 2 | 6\n```\nkind 32 | 0 | 1\n";
        let listed = Listed::from_text(text);
        assert!(listed.has(b"kind 393030", b"2", b"6"));
        assert!(!listed.has(b"kind 393030", b"2", b"5"));
        assert!(!listed.has(b"kind 31", b"0", b"1"));
    }
}
