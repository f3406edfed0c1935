//! Expressions, and their bytes (docs/FORMAT.md, 'The tree as bytes').

#[derive(Debug, Clone, Copy, PartialEq, Eq)]
pub enum Sign {
    /// Side by side.
    Then,
    And,
    Or,
    Xor,
}

/// A node row's kinds from 1 on.
const SIGNS: [Sign; 4] = [Sign::Then, Sign::And, Sign::Or, Sign::Xor];

/// A citation by its text, or operands joined by a sign.
#[derive(Debug, Clone, PartialEq, Eq)]
pub enum Node {
    Cited(String),
    Joined(Sign, Vec<Node>),
}

impl Node {
    /// The cited texts in their order.
    pub fn texts(&self) -> Vec<&str> {
        match self {
            Node::Cited(text) => vec![text],
            Node::Joined(_, operands) => operands.iter().flat_map(Node::texts).collect(),
        }
    }

    /// Kind, children or citation number, and size of each row, the citations numbered from `first` on.
    fn rows(&self, first: usize) -> Vec<[usize; 3]> {
        match self {
            Node::Cited(_) => vec![[0, first, 1]],
            Node::Joined(sign, operands) => {
                let mut below = Vec::new();
                let mut next = first;
                for operand in operands {
                    below.extend(operand.rows(next));
                    next += operand.texts().len();
                }
                let kind = 1 + SIGNS.iter().position(|one| one == sign).expect("a sign");
                [vec![[kind, operands.len(), below.len() + 1]], below].concat()
            }
        }
    }

    pub fn bytes(&self) -> Vec<u8> {
        let (rows, texts) = (self.rows(0), self.texts());
        let cited_from = 12 + 6 * rows.len();
        let texts_from = cited_from + 4 * texts.len();
        let end = texts_from + texts.iter().map(|text| text.len()).sum::<usize>();
        let mut numbers = vec![rows.len(), texts.len(), 12, cited_from, texts_from, end];
        rows.iter().for_each(|row| numbers.extend(row));
        let mut offset = 0;
        for text in &texts {
            numbers.extend([offset, text.len()]);
            offset += text.len();
        }
        let mut bytes: Vec<u8> = numbers.iter().flat_map(|number| (*number as u16).to_le_bytes()).collect();
        bytes.extend(texts.concat().into_bytes());
        bytes
    }

    /// The expression whose bytes these are, if they are a tree.
    pub fn of_bytes(bytes: &[u8]) -> Option<Self> {
        let (nodes, citations) = (number(bytes, 0)?, number(bytes, 2)?);
        let texts_from = 12 + 6 * nodes + 4 * citations;
        let mut texts = Vec::new();
        for row in (0..citations).map(|citation| 12 + 6 * nodes + 4 * citation) {
            let from = texts_from + number(bytes, row)?;
            let text = bytes.get(from..from + number(bytes, row + 2)?)?;
            texts.push(std::str::from_utf8(text).ok()?.to_owned());
        }
        let node = node_at(bytes, &mut 0, nodes, &texts)?;
        let size: usize = texts.iter().map(String::len).sum();
        let citable = texts.iter().all(|text| !text.chars().all(is_white) && !text.contains(']'));
        (citable && citations <= 256 && size <= 2_048 && node.bytes() == bytes).then_some(node)
    }
}

fn number(bytes: &[u8], at: usize) -> Option<usize> {
    Some(usize::from(*bytes.get(at)?) + 256 * usize::from(*bytes.get(at + 1)?))
}

/// The node at a row, which is then the row after it.
fn node_at(bytes: &[u8], row: &mut usize, rows: usize, texts: &[String]) -> Option<Node> {
    if *row >= rows {
        return None;
    }
    let at = 12 + 6 * *row;
    *row += 1;
    let second = number(bytes, at + 2)?;
    let kind = number(bytes, at)?;
    if kind == 0 {
        return Some(Node::Cited(texts.get(second)?.clone()));
    }
    if second < 2 {
        return None;
    }
    let mut operands = Vec::new();
    for _ in 0..second {
        operands.push(node_at(bytes, row, rows, texts)?);
    }
    Some(Node::Joined(*SIGNS.get(kind - 1)?, operands))
}

pub fn is_white(c: char) -> bool {
    matches!(u32::from(c), 0x09..=0x0D | 0x20 | 0x85 | 0xA0 | 0x1680 | 0x2000..=0x200A | 0x2028 | 0x2029 | 0x202F | 0x205F | 0x3000)
}

#[cfg(test)]
mod tests {
    use super::*;

    #[test]
    fn of_one_citation() {
        let one = Node::Cited("1".to_owned());
        let due = [1, 0, 1, 0, 12, 0, 18, 0, 22, 0, 23, 0, 0, 0, 0, 0, 1, 0, 0, 0, 1, 0, b'1'];
        assert_eq!(one.bytes(), due);
        assert_eq!(Node::of_bytes(&due), Some(one));
        for at in 0..due.len() {
            assert_eq!(Node::of_bytes(&due[..at]), None);
            let mut other = due;
            other[at] ^= 1;
            let blank_or_digit = at == due.len() - 1;
            assert_eq!(Node::of_bytes(&other).is_some(), blank_or_digit, "{at}");
        }
    }
}
