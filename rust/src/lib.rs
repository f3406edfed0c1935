//! AHB conditions: reading, presence and verdicts, from the proved library `libahb.a`.
//!
//! A refusal leaves every lent byte as it was. Nothing is allocated, and nothing is kept between calls. A call takes at
//! most some 126 KiB of stack, for the deepest parentheses.

use std::fmt;

/// The longest text, in bytes.
pub const TEXT_LIMIT: usize = 4400;
/// The longest value, in bytes.
pub const VALUE_LIMIT: usize = 1024;
/// Most citations of a tree.
pub const CITATION_LIMIT: usize = 256;
/// Most bytes in the citations of a tree.
pub const CITED_LIMIT: usize = 2048;
/// A buffer of this length holds every tree.
pub const TREE_SIZE: usize = 6150;
/// A list of this length holds the numbers of all violations, 2 bytes each, the low one first.
pub const VIOLATIONS_SIZE: usize = 512;
/// The answer byte of a citation whose evaluation failed; the others are the numbers of [`Truth`].
pub const FAILED: u8 = 4;

const ACCEPTED: u64 = 1 << 32;
const PRESENT: u32 = 256;
const EXPRESSION: u64 = 7;
const EXPRESSION_MODE: u8 = 0;
const STATUS_MODE: u8 = 1;

/// The functions as the library defines them: a slice is a pointer that is not null, and a length.
mod raw {
    #[link(name = "ahb", kind = "static")]
    extern "C" {
        pub fn ahb_read(
            text: *const u8,
            text_length: usize,
            mode: u8,
            out: *mut u8,
            out_length: usize,
        ) -> u64;
        pub fn ahb_presence(
            tree: *const u8,
            tree_length: usize,
            answers: *const u8,
            answers_length: usize,
        ) -> u32;
        pub fn ahb_verdicts(
            tree: *const u8,
            tree_length: usize,
            value: *const u8,
            value_length: usize,
            list: *mut u8,
            list_length: usize,
        ) -> u64;
    }
}

/// Why an input is turned back.
#[derive(Clone, Copy, Debug, PartialEq, Eq, Hash)]
#[repr(u8)]
pub enum Refusal {
    Stray = 1,
    Unterminated = 2,
    EmptyCondition = 3,
    MissingOperand = 4,
    Parentheses = 5,
    Empty = 6,
    ChoiceOverNeutral = 7,
    FailedAnswer = 8,
    NoStatusWord = 9,
    TooLong = 10,
    NotUtf8 = 11,
    TooManyCitations = 12,
    TooDeep = 13,
    NoRoom = 14,
    NotATree = 15,
    WrongAnswers = 16,
    NotAPaket = 17,
}

impl Refusal {
    /// All of them, in the order of their numbers.
    pub const ALL: [Refusal; 17] = [
        Refusal::Stray,
        Refusal::Unterminated,
        Refusal::EmptyCondition,
        Refusal::MissingOperand,
        Refusal::Parentheses,
        Refusal::Empty,
        Refusal::ChoiceOverNeutral,
        Refusal::FailedAnswer,
        Refusal::NoStatusWord,
        Refusal::TooLong,
        Refusal::NotUtf8,
        Refusal::TooManyCitations,
        Refusal::TooDeep,
        Refusal::NoRoom,
        Refusal::NotATree,
        Refusal::WrongAnswers,
        Refusal::NotAPaket,
    ];

    /// The number under which callers know it, 1 to 17.
    pub fn number(self) -> u8 {
        self as u8
    }

    /// What is wrong with the input.
    pub fn message(self) -> &'static str {
        match self {
            Refusal::Stray => "a character that is no citation, operator, parenthesis or white space",
            Refusal::Unterminated => "a `[` without its `]`",
            Refusal::EmptyCondition => "a citation of white space only",
            Refusal::MissingOperand => "an operand is due, and neither a citation nor `(` follows",
            Refusal::Parentheses => "a `)` is missing or left over",
            Refusal::Empty => "no expression",
            Refusal::ChoiceOverNeutral => "a choice between what gates a place and what does not",
            Refusal::FailedAnswer => "the answer to an evaluated citation failed",
            Refusal::NoStatusWord => "the text does not begin with a status word",
            Refusal::TooLong => "the text or the value is too long",
            Refusal::NotUtf8 => "the text or the value is not UTF-8",
            Refusal::TooManyCitations => "too many citations, or too many bytes in them",
            Refusal::TooDeep => "too many parentheses are open",
            Refusal::NoRoom => "the lent buffer is shorter than the result",
            Refusal::NotATree => "the bytes are not a tree",
            Refusal::WrongAnswers => "the answers do not fit the citations",
            Refusal::NotAPaket => "the text is not a Paket citation",
        }
    }

    /// The refusal of an answer below the least accepted one.
    fn of(answer: u64) -> Refusal {
        match answer {
            1..=17 => Refusal::ALL[answer as usize - 1],
            _ => unreachable!("no refusal has the number {answer}"),
        }
    }
}

impl fmt::Display for Refusal {
    fn fmt(&self, f: &mut fmt::Formatter<'_>) -> fmt::Result {
        f.write_str(self.message())
    }
}

impl std::error::Error for Refusal {}

/// The status words.
#[derive(Clone, Copy, Debug, PartialEq, Eq, Hash)]
#[repr(u8)]
pub enum StatusKind {
    Muss = 0,
    Soll = 1,
    Kann = 2,
    X = 3,
    M = 4,
    S = 5,
    K = 6,
}

impl StatusKind {
    /// All of them, in the order of their codes.
    pub const ALL: [StatusKind; 7] = [
        StatusKind::Muss,
        StatusKind::Soll,
        StatusKind::Kann,
        StatusKind::X,
        StatusKind::M,
        StatusKind::S,
        StatusKind::K,
    ];

    pub fn code(self) -> u8 {
        self as u8
    }
}

/// A presence, or a format truth; the latter is never Neutral.
#[derive(Clone, Copy, Debug, PartialEq, Eq, Hash)]
#[repr(u8)]
pub enum Truth {
    False = 0,
    Unknown = 1,
    True = 2,
    Neutral = 3,
}

impl Truth {
    /// All of them, in the order of their numbers.
    pub const ALL: [Truth; 4] = [Truth::False, Truth::Unknown, Truth::True, Truth::Neutral];

    /// The number, which is also the answer byte.
    pub fn number(self) -> u8 {
        self as u8
    }
}

/// What an accepted answer of 64 bits says: a code or the number of a truth, and a length or a count.
fn parts(answer: u64) -> Result<(u64, usize), Refusal> {
    let said = answer.checked_sub(ACCEPTED).ok_or_else(|| Refusal::of(answer))?;
    Ok((said >> 16, (said & 0xFFFF) as usize))
}

/// The code, and the length.
fn read(text: &[u8], mode: u8, out: &mut [u8]) -> Result<(u64, usize), Refusal> {
    // A slice's pointer is never null, and `out` overlaps nothing.
    parts(unsafe { raw::ahb_read(text.as_ptr(), text.len(), mode, out.as_mut_ptr(), out.len()) })
}

/// Reads an expression: the length of its tree, which begins `out`.
pub fn read_expression(text: &[u8], out: &mut [u8]) -> Result<usize, Refusal> {
    let (code, length) = read(text, EXPRESSION_MODE, out)?;
    debug_assert_eq!(code, EXPRESSION);
    Ok(length)
}

/// Reads a status: its word and the length of the tree after it, which begins `out`; a word alone has no tree.
pub fn read_status(text: &[u8], out: &mut [u8]) -> Result<(StatusKind, Option<usize>), Refusal> {
    let (code, length) = read(text, STATUS_MODE, out)?;
    Ok((StatusKind::ALL[code as usize], (length != 0).then_some(length)))
}

/// The presence of a tree, by one answer byte a citation.
pub fn presence(tree: &[u8], answers: &[u8]) -> Result<Truth, Refusal> {
    // A slice's pointer is never null.
    let answer = unsafe { raw::ahb_presence(tree.as_ptr(), tree.len(), answers.as_ptr(), answers.len()) };
    let said = answer.checked_sub(PRESENT).ok_or_else(|| Refusal::of(answer.into()))?;
    Ok(Truth::ALL[said as usize])
}

/// The format truth of a tree for a value, and how many violations it has: the citations that it violates, but for those in a
/// group that is True or Unknown. Their numbers begin `list`, 2 bytes each, the low one first. If `list` is too short for
/// them, the answer is [`Refusal::NoRoom`] alone and `list` keeps its bytes; [`VIOLATIONS_SIZE`] bytes are always enough.
pub fn verdicts(tree: &[u8], value: &[u8], list: &mut [u8]) -> Result<(Truth, usize), Refusal> {
    // A slice's pointer is never null, and `list` overlaps nothing.
    let answer = unsafe {
        raw::ahb_verdicts(
            tree.as_ptr(),
            tree.len(),
            value.as_ptr(),
            value.len(),
            list.as_mut_ptr(),
            list.len(),
        )
    };
    let (truth, count) = parts(answer)?;
    Ok((Truth::ALL[truth as usize], count))
}
