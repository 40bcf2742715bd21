//! A tree from words: those of `tools/frames.py`, so that one file serves the bench program and a host.

use crate::behavior::Behavior;
use crate::kind::Kind;
use std::error::Error;
use std::fmt;

/// The bench program takes no more nodes; a tree of 257 is then refused as such.
const MOST_LINES: usize = 257;

/// Words that are those of no tree.
#[derive(Clone, Debug, PartialEq, Eq)]
pub struct WordsError {
    /// The line, counted from 1.
    pub line: usize,
    /// What is wrong with it.
    pub why: String,
}

impl fmt::Display for WordsError {
    fn fmt(&self, f: &mut fmt::Formatter<'_>) -> fmt::Result {
        write!(f, "line {}: {}", self.line, self.why)
    }
}

impl Error for WordsError {}

/// A line `node KIND N limit TIME`.
struct Row<'a> {
    line: usize,
    indent: &'a str,
    kind: Kind,
    n: Option<u16>,
    limit: f64,
}

impl Row<'_> {
    fn wrong(&self, why: impl Into<String>) -> WordsError {
        WordsError { line: self.line, why: why.into() }
    }
}

impl Behavior<u16> {
    /// Reads a tree from words. Each behavior is a line `node KIND N limit TIME`:
    ///
    /// - `KIND` is a name, as `Wait` or `Sequence`.
    /// - `N` is an action's number, or how many children there are; left out, the children are
    ///   counted by the indentation.
    /// - `limit TIME` is left out where the limit is 0. A time is a decimal number that an f64 holds
    ///   exactly, or the nearest one to a number behind `~`, or the 16 digits of its bits behind `0x`.
    ///
    /// `#` and what follows it is passed over. What comes behind the first `tick` or `restart` is for the
    /// bench program, and is not looked at.
    ///
    /// ```
    /// use lemboraw::{Action, Behavior, Sequence, Timeout, Wait};
    ///
    /// let words = "
    ///     node Sequence
    ///       node Wait limit 2000
    ///       node Timeout limit 500
    ///         node Action 7   # scan
    /// ";
    /// assert_eq!(
    ///     Behavior::from_words(words),
    ///     Ok(Sequence(vec![Wait(2000.0), Timeout(500.0, Box::new(Action(7)))]))
    /// );
    /// ```
    pub fn from_words(text: &str) -> Result<Behavior<u16>, WordsError> {
        let rows = rows(text)?;
        let tabs = rows.iter().find(|row| row.indent.contains(|c| c != ' '));
        match tabs {
            Some(row) if rows.iter().any(|row| row.n.is_none()) => {
                return Err(row.wrong("indentation: only spaces, where a number of children is left out"));
            }
            _ => {}
        }
        // From the last line to the first, so that a behavior's children are there when it is met: what
        // has been built and waits for its parent, the next child at the end.
        let mut built: Vec<(usize, Behavior<u16>)> = vec![];
        for (index, row) in rows.iter().enumerate().rev() {
            let n = match row.n {
                Some(n) => usize::from(n),
                None => indented(&rows, index)?,
            };
            let children = if row.kind == Kind::Action { 0 } else { n };
            if children > built.len() {
                return Err(row.wrong(format!("n: {children} children are wanted, and {} follow", built.len())));
            }
            let below = built.split_off(built.len() - children).into_iter().rev().map(|(_, child)| child).collect();
            built.push((row.line, behavior(row, below)?));
        }
        let root = built.pop();
        match (root, built.pop()) {
            (Some((_, root)), None) => Ok(root),
            (None, _) => Err(WordsError { line: 1, why: "there is no node".into() }),
            (_, Some((line, _))) => Err(WordsError { line, why: "this node is not part of the tree above it".into() }),
        }
    }
}

fn rows(text: &str) -> Result<Vec<Row<'_>>, WordsError> {
    let mut rows = vec![];
    for (index, text) in text.lines().enumerate() {
        let line = index + 1;
        let wrong = |why: String| WordsError { line, why };
        let indent = &text[..text.len() - text.trim_start().len()];
        let mut words = text.split_whitespace().take_while(|word| !word.starts_with('#'));
        match words.next() {
            None => {}
            Some("tick" | "restart") => break,
            Some("node") if rows.len() == MOST_LINES => return Err(wrong(format!("more than {MOST_LINES} nodes"))),
            Some("node") => {
                let (kind, n, limit) = node(words).map_err(wrong)?;
                rows.push(Row { line, indent, kind, n, limit });
            }
            Some(word) => return Err(wrong(format!("{} is neither node, tick nor restart", short(word)))),
        }
    }
    Ok(rows)
}

fn node<'a>(words: impl Iterator<Item = &'a str>) -> Result<(Kind, Option<u16>, f64), String> {
    let mut words = words.peekable();
    let kind = kind(words.next().ok_or("kind is missing")?)?;
    let n = match words.next_if(|&word| word != "limit") {
        None if kind == Kind::Action => return Err("n (the action's number) is missing".into()),
        None => None,
        Some(word) if !digits(word) => return Err(format!("n: {} is no number", short(word))),
        Some(word) => Some(word.parse().map_err(|_| format!("n: {} is above 65535", short(word)))?),
    };
    let limit = match words.next() {
        None => 0.0,
        Some("limit") => time(words.next().ok_or("limit is missing")?).map_err(|why| format!("limit: {why}"))?,
        Some(word) => return Err(format!("the word limit is wanted, and not {}", short(word))),
    };
    match words.next() {
        None => Ok((kind, n, limit)),
        Some(word) => Err(format!("{} is one word too many", short(word))),
    }
}

fn kind(word: &str) -> Result<Kind, String> {
    let numbered = |kind: &Kind| word == format!("kind:{:02x}", kind.number());
    let found = Kind::ALL.into_iter().find(|kind| word == kind.to_string() || numbered(kind));
    found.ok_or_else(|| {
        let names: Vec<_> = Kind::ALL.iter().map(Kind::to_string).collect();
        format!("kind: {} is unknown; there are {}", short(word), names.join(", "))
    })
}

/// A word for a message, which a long one would bury.
fn short(word: &str) -> String {
    match word.char_indices().nth(40) {
        None => format!("{word:?}"),
        Some((at, _)) => format!("{:?}..", &word[..at]),
    }
}

/// How many of the next rows are indented as children of this one.
fn indented(rows: &[Row], parent: usize) -> Result<usize, WordsError> {
    let indent = |row: &Row| row.indent.len();
    let below = || rows[parent + 1..].iter().take_while(|row| indent(row) > indent(&rows[parent]));
    let first = below().next().map_or(0, indent);
    match below().find(|row| indent(row) < first) {
        Some(row) => {
            let above = rows[parent].line;
            Err(row
                .wrong(format!("indentation: as deep as no other node below line {above}, whose children are counted")))
        }
        None => Ok(below().filter(|row| indent(row) == first).count()),
    }
}

fn behavior(row: &Row, children: Vec<Behavior<u16>>) -> Result<Behavior<u16>, WordsError> {
    if row.limit != 0.0 && !row.kind.timed() {
        return Err(row.wrong(format!("limit: {} has none", row.kind)));
    }
    let n = children.len();
    let mut children = children.into_iter();
    let mut next = || children.next().map(Box::new);
    let found = match row.kind {
        Kind::Wait | Kind::WaitForever if n != 0 => None,
        Kind::Invert | Kind::AlwaysSucceed | Kind::Timeout if n != 1 => None,
        Kind::If if n != 3 => None,
        Kind::Wait => Some(Behavior::Wait(row.limit)),
        Kind::WaitForever => Some(Behavior::WaitForever),
        Kind::Action => row.n.map(Behavior::Action),
        Kind::Invert => next().map(Behavior::Invert),
        Kind::AlwaysSucceed => next().map(Behavior::AlwaysSucceed),
        Kind::Timeout => next().map(|child| Behavior::Timeout(row.limit, child)),
        Kind::If => match (next(), next(), next()) {
            (Some(condition), Some(success), Some(failure)) => Some(Behavior::If(condition, success, failure)),
            _ => None,
        },
        Kind::While => next().map(|condition| Behavior::While(condition, children.collect())),
        Kind::WhileAll => next().map(|condition| Behavior::WhileAll(condition, children.collect())),
        Kind::Select => Some(Behavior::Select(children.collect())),
        Kind::Sequence => Some(Behavior::Sequence(children.collect())),
        Kind::MemorylessSequence => Some(Behavior::MemorylessSequence(children.collect())),
        Kind::MemorylessSelector => Some(Behavior::MemorylessSelector(children.collect())),
        Kind::WhenAll => Some(Behavior::WhenAll(children.collect())),
        Kind::WhenAny => Some(Behavior::WhenAny(children.collect())),
        Kind::After => Some(Behavior::After(children.collect())),
        Kind::Race => Some(Behavior::Race(children.collect())),
    };
    found.ok_or_else(|| row.wrong(format!("n: {} can't have {n} children", row.kind)))
}

fn digits(word: &str) -> bool {
    !word.is_empty() && word.bytes().all(|byte| byte.is_ascii_digit())
}

fn time(word: &str) -> Result<f64, String> {
    if let Some(bits) = word.strip_prefix("0x") {
        if bits.len() == 16 && bits.bytes().all(|byte| matches!(byte, b'0'..=b'9' | b'a'..=b'f')) {
            return u64::from_str_radix(bits, 16).map(f64::from_bits).map_err(|error| error.to_string());
        }
    }
    let near = word.strip_prefix('~');
    let number = near.unwrap_or(word);
    let (Some(wanted), Ok(value)) = (decimal(number), number.parse::<f64>()) else {
        return Err(format!("{} is no time, as 2, 0.5, ~0.1 or 0x and 16 digits", short(word)));
    };
    if value.is_infinite() {
        return Err(format!("{} is larger than every f64", short(number)));
    }
    // An f64 has at most 767 digits.
    if near.is_some() || decimal(&format!("{value:.800e}")) == Some(wanted) {
        return Ok(value);
    }
    let (number, bits) = (short(number), value.to_bits());
    Err(format!("{number} is no f64; write ~ before the number to take the nearest, or 0x{bits:016x}"))
}

/// The sign, the digits without zeros at either end, and the power of ten that they are multiplied by.
fn decimal(word: &str) -> Option<(bool, String, i128)> {
    let number = word.strip_prefix('-').unwrap_or(word);
    let (mantissa, power) = number.split_once('e').unwrap_or((number, "0"));
    let (whole, part) = mantissa.split_once('.').unwrap_or((mantissa, "0"));
    if !digits(whole) || !digits(part) || !digits(power.strip_prefix(['+', '-']).unwrap_or(power)) {
        return None;
    }
    let all = whole.to_owned() + part;
    let kept = all.trim_end_matches('0');
    let power = i128::from(power.parse::<i64>().ok()?) + whole.len() as i128 - kept.len() as i128;
    let kept = kept.trim_start_matches('0');
    Some((number != word, kept.to_owned(), if kept.is_empty() { 0 } else { power }))
}
