//! Stands inside the original's `conditions`: measures its private token list,
//! so that the limits are applied before its recursive parser runs.

use super::{ExprError, Tok, lex};

/// What the refusals 6, 12 and 13 ask of a text.
#[derive(Default)]
pub struct Sizes {
    pub tokens: usize,
    pub citations: usize,
    /// Bytes in the citations.
    pub bytes: usize,
    /// Most parentheses open at once.
    pub depth: usize,
}

/// The sizes of a text's tokens, or the original's first complaint.
pub fn sizes(text: &str) -> Result<Sizes, ExprError> {
    let mut sizes = Sizes::default();
    let mut open = 0usize;
    for token in lex(text)? {
        sizes.tokens += 1;
        match token {
            Tok::Cond(cited) => {
                sizes.citations += 1;
                sizes.bytes += cited.len();
            }
            Tok::Open => open += 1,
            Tok::Close => open = open.saturating_sub(1),
            Tok::And | Tok::Or | Tok::Xor => {}
        }
        sizes.depth = sizes.depth.max(open);
    }
    Ok(sizes)
}
