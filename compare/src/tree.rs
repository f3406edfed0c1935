//! The tree as bytes (docs/FORMAT.md), from and to the original's expressions.

use crate::original::conditions::Expr;

pub const HEADER: usize = 12;
pub const NODE_ROW: usize = 6;
pub const CITATION_ROW: usize = 4;
pub const MOST_CITATIONS: usize = 256;
pub const MOST_TEXT_BYTES: usize = 2_048;

/// A node's operands, none for a citation.
pub fn operands(expr: &Expr) -> &[Expr] {
    match expr {
        Expr::Cond(_) => &[],
        Expr::Then(v) | Expr::And(v) | Expr::Or(v) | Expr::Xor(v) => v,
    }
}

/// The node kind, as a tree's row has it.
fn kind(expr: &Expr) -> u8 {
    match expr {
        Expr::Cond(_) => 0,
        Expr::Then(_) => 1,
        Expr::And(_) => 2,
        Expr::Or(_) => 3,
        Expr::Xor(_) => 4,
    }
}

/// An inner node of a kind from 1 to 4.
pub fn node(kind: u8, operands: Vec<Expr>) -> Option<Expr> {
    match kind {
        1 => Some(Expr::Then(operands)),
        2 => Some(Expr::And(operands)),
        3 => Some(Expr::Or(operands)),
        4 => Some(Expr::Xor(operands)),
        _ => None,
    }
}

fn put(value: usize, out: &mut Vec<u8>) {
    let field = u16::try_from(value).expect("a field of the tree has two bytes");
    out.extend_from_slice(&field.to_le_bytes());
}

/// Writes the rows of a subtree and says how many they are.
fn put_rows(expr: &Expr, cited: &mut usize, rows: &mut Vec<u8>) -> usize {
    let start = rows.len();
    rows.extend_from_slice(&[0; NODE_ROW]);
    let mut count = 1;
    for operand in operands(expr) {
        count += put_rows(operand, cited, rows);
    }
    let second = if kind(expr) == 0 { *cited } else { operands(expr).len() };
    *cited += usize::from(kind(expr) == 0);
    let mut row = vec![kind(expr), 0];
    put(second, &mut row);
    put(count, &mut row);
    rows[start..start + NODE_ROW].copy_from_slice(&row);
    count
}

/// The bytes of an expression.
pub fn encode(expr: &Expr) -> Vec<u8> {
    let mut rows = Vec::new();
    let nodes = put_rows(expr, &mut 0, &mut rows);
    encode_parts(nodes, &rows, &expr.cited().iter().map(|t| t.as_bytes()).collect::<Vec<_>>())
}

/// The bytes of node rows and texts, whatever they are.
pub fn encode_parts(nodes: usize, rows: &[u8], texts: &[&[u8]]) -> Vec<u8> {
    let citation_rows = HEADER + rows.len();
    let text_start = citation_rows + CITATION_ROW * texts.len();
    let total = text_start + texts.iter().map(|t| t.len()).sum::<usize>();
    let mut out = Vec::with_capacity(total);
    for field in [nodes, texts.len(), HEADER, citation_rows, text_start, total] {
        put(field, &mut out);
    }
    out.extend_from_slice(rows);
    let mut offset = 0;
    for text in texts {
        put(offset, &mut out);
        put(text.len(), &mut out);
        offset += text.len();
    }
    out.extend(texts.iter().flat_map(|t| t.iter()));
    out
}

/// A field of two bytes.
fn field(bytes: &[u8], at: usize) -> Option<usize> {
    let pair = bytes.get(at..at + 2)?;
    Some(usize::from(pair[0]) + 256 * usize::from(pair[1]))
}

/// What is left to read of the node rows.
struct Rows<'a> {
    bytes: &'a [u8],
    texts: Vec<&'a str>,
    next_row: usize,
    next_citation: usize,
}

impl Rows<'_> {
    fn subtree(&mut self) -> Option<Expr> {
        let first = self.next_row;
        let row = self.bytes.get(first * NODE_ROW..(first + 1) * NODE_ROW)?;
        let (kind, zero, second, size) = (row[0], row[1], field(row, 2)?, field(row, 4)?);
        self.next_row += 1;
        let expr = if kind == 0 { self.citation(second) } else { self.inner(kind, second) };
        (zero == 0 && self.next_row - first == size).then_some(expr?)
    }

    fn citation(&mut self, number: usize) -> Option<Expr> {
        let text = *self.texts.get(number)?;
        let due = number == self.next_citation;
        self.next_citation += 1;
        due.then(|| Expr::Cond(text.to_owned()))
    }

    fn inner(&mut self, kind: u8, children: usize) -> Option<Expr> {
        let mut operands = Vec::new();
        for _ in 0..children {
            operands.push(self.subtree()?);
        }
        if children < 2 {
            return None;
        }
        node(kind, operands)
    }
}

/// The cited texts, if the citation rows leave no gap and every text may be cited.
fn texts(bytes: &[u8], citations: usize, rows: usize, start: usize) -> Option<Vec<&str>> {
    let mut due = 0;
    let mut texts = Vec::new();
    for row in (0..citations).map(|number| rows + CITATION_ROW * number) {
        let (offset, length) = (field(bytes, row)?, field(bytes, row + 2)?);
        let text = bytes.get(start + offset..start + offset + length)?;
        let text = std::str::from_utf8(text).ok()?;
        if offset != due || text.trim().is_empty() || text.contains(']') {
            return None;
        }
        due += length;
        texts.push(text);
    }
    (start + due == bytes.len() && due <= MOST_TEXT_BYTES).then_some(texts)
}

/// The expression of a tree, none for bytes that are no tree.
pub fn decode(bytes: &[u8]) -> Option<Expr> {
    let header: Vec<usize> = (0..6).map(|i| field(bytes, 2 * i)).collect::<Option<_>>()?;
    let (nodes, citations) = (header[0], header[1]);
    let citation_rows = HEADER + NODE_ROW * nodes;
    let text_start = citation_rows + CITATION_ROW * citations;
    if header[2..] != [HEADER, citation_rows, text_start, bytes.len()] {
        return None;
    }
    if citations > MOST_CITATIONS {
        return None;
    }
    let texts = texts(bytes, citations, citation_rows, text_start)?;
    let bytes = bytes.get(HEADER..citation_rows)?;
    let mut rows = Rows { bytes, texts, next_row: 0, next_citation: 0 };
    let expr = rows.subtree()?;
    (rows.next_row == nodes && rows.next_citation == citations).then_some(expr)
}

/// The flat tree: operands of a Then that are Thens are dissolved.
pub fn flat(expr: &Expr) -> Expr {
    let operands: Vec<Expr> = operands(expr).iter().map(flat).collect();
    match expr {
        Expr::Cond(text) => Expr::Cond(text.clone()),
        Expr::Then(_) => Expr::Then(operands.into_iter().flat_map(dissolved).collect()),
        _ => node(kind(expr), operands).expect("an inner node"),
    }
}

fn dissolved(expr: Expr) -> Vec<Expr> {
    match expr {
        Expr::Then(operands) => operands,
        other => vec![other],
    }
}

#[cfg(test)]
mod tests {
    use super::*;

    #[test]
    fn bytes_of_one_citation() {
        let bytes = encode(&Expr::Cond("1".into()));
        let due = [1, 0, 1, 0, 12, 0, 18, 0, 22, 0, 23, 0, 0, 0, 0, 0, 1, 0, 0, 0, 1, 0, b'1'];
        assert_eq!(bytes, due);
    }

    #[test]
    fn decoding_undoes_encoding() {
        let text = "([902] ∨ [903]) ([1] [2 ]) ∧ ([914] ⊻ [UB1] ⊻ ([3] ∧ [4]))";
        let expr = Expr::parse(text).unwrap();
        let bytes = encode(&expr);
        assert_eq!(decode(&bytes), Some(expr));
        for length in 0..bytes.len() {
            assert_eq!(decode(&bytes[..length]), None);
        }
    }

    #[test]
    fn flat_dissolves_nothing_but_juxtaposition() {
        let nested = Expr::parse("(([1] [2]) [3] ∧ [4]) ([5] [6])").unwrap();
        let flatter = Expr::parse("([1] [2] [3] ∧ [4]) [5] [6]").unwrap();
        assert_eq!(flat(&nested), flatter);
    }
}
