//! The request lines of `replay`'s protocol.

/// What can be asked; `Protocol` stands for lines that are no requests.
#[derive(Debug, Clone, Copy, PartialEq, Eq, PartialOrd, Ord, Hash)]
pub enum Function {
    Kind,
    Paket,
    Name,
    Evaluate,
    Registered,
    Expr,
    Status,
    Tree,
    Print,
    Cited,
    Eval,
    Pakete,
    Verdicts,
    Protocol,
}

use Function::*;

/// The longest line, its line feed not counted.
pub const LONGEST_LINE: usize = 64 * 1024;
/// The answer to a line that is no request.
pub const BAD_REQUEST: &str = "bad request";

impl Function {
    pub const ALL: [Self; 14] = [
        Kind, Paket, Name, Evaluate, Registered, Expr, Status, Tree, Print, Cited, Eval, Pakete, Verdicts,
        Protocol,
    ];

    /// The word that a request begins with.
    pub fn word(self) -> &'static str {
        match self {
            Kind => "kind",
            Paket => "paket",
            Name => "name",
            Evaluate => "evaluate",
            Registered => "registered",
            Expr => "expr",
            Status => "status",
            Tree => "tree",
            Print => "print",
            Cited => "cited",
            Eval => "eval",
            Pakete => "pakete",
            Verdicts => "verdicts",
            Protocol => "protocol",
        }
    }

    pub fn of(word: &[u8]) -> Option<Self> {
        let asked = Self::ALL.into_iter().filter(|f| *f != Protocol);
        asked.into_iter().find(|f| f.word().as_bytes() == word)
    }

    /// How many byte strings a request has.
    pub fn fields(self) -> usize {
        match self {
            Kind | Paket | Name | Registered | Tree | Cited => 1,
            Verdicts => 3,
            Protocol => 0,
            _ => 2,
        }
    }

    /// Whether the last field is a lent buffer.
    pub fn lends(self) -> bool {
        matches!(self, Expr | Status | Print | Pakete | Verdicts)
    }

    /// Whether the library for callers exports it, so that it is called in process.
    pub fn exported(self) -> bool {
        matches!(self, Expr | Status | Eval | Verdicts)
    }

    /// A request that is answered by every replay that knows the function.
    pub fn probe(self) -> Vec<u8> {
        let mut line = Vec::new();
        if self == Protocol {
            return line;
        }
        let empty: &[u8] = b"";
        write_request(self, &vec![empty; self.fields()], &mut line);
        line
    }
}

/// Writes a request without its line feed; the field of `Protocol` is the line itself.
pub fn write_request(function: Function, fields: &[&[u8]], line: &mut Vec<u8>) {
    if function == Protocol {
        line.extend_from_slice(fields[0]);
        return;
    }
    line.extend_from_slice(function.word().as_bytes());
    for field in fields {
        line.push(b' ');
        write_hex(field, line);
    }
}

/// A byte string in lower-case hex, `-` for an empty one.
pub fn write_hex(bytes: &[u8], out: &mut Vec<u8>) {
    const DIGITS: &[u8; 16] = b"0123456789abcdef";
    if bytes.is_empty() {
        out.push(b'-');
    }
    for byte in bytes {
        out.push(DIGITS[usize::from(byte >> 4)]);
        out.push(DIGITS[usize::from(byte & 15)]);
    }
}

/// The byte string of a field, if it is one.
pub fn unhex(field: &[u8]) -> Option<Vec<u8>> {
    if field == b"-" {
        return Some(Vec::new());
    }
    if field.is_empty() || field.len() % 2 == 1 {
        return None;
    }
    field.chunks(2).map(|pair| Some(digit(pair[0])? * 16 + digit(pair[1])?)).collect()
}

fn digit(character: u8) -> Option<u8> {
    match character {
        b'0'..=b'9' => Some(character - b'0'),
        b'a'..=b'f' => Some(character - b'a' + 10),
        _ => None,
    }
}

/// A request's function and byte strings, or none for a line that is no request.
pub fn parse(line: &[u8]) -> Option<(Function, Vec<Vec<u8>>)> {
    if line.len() > LONGEST_LINE {
        return None;
    }
    let mut parts = line.split(|byte| *byte == b' ');
    let function = Function::of(parts.next()?)?;
    let fields: Vec<Vec<u8>> = parts.map(unhex).collect::<Option<_>>()?;
    (fields.len() == function.fields()).then_some((function, fields))
}
