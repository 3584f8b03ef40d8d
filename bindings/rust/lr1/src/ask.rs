//! The calls of the C library.

use crate::Error;

/// How many bytes or numbers the first call has room for.
const ROOM: usize = 1 << 16;
/// How many bytes of a message the first call has room for.
const MESSAGE: usize = 1 << 8;

/// How tables are made.
#[derive(Clone, Copy, Debug, Default, PartialEq, Eq)]
pub enum Method {
    /// Lane tables if the grammar has such, which are smaller, and else the canonical ones.
    #[default]
    Lane,
    /// The canonical tables, those of Knuth's construction.
    Canonical,
}

/// What an answer says.
#[derive(Clone, Copy, Debug, PartialEq, Eq)]
pub enum Status {
    /// There are tables, a parse tree, or nothing to report, or tables are faithful.
    Ok,
    /// There are conflicts or warnings, a parse was refused or reached its limit, or tables do not
    /// pass the check.
    Refused,
    /// The text, the words or the numbers have a fault, and the answer's text is a message.
    Fault,
}

/// What the library returns.
#[derive(Clone, Debug, PartialEq, Eq)]
pub struct Answer {
    /// What the text is.
    pub status: Status,
    /// What the program writes to standard output, or else to standard error, or a message.
    pub text: String,
}

/// The version of the library's calls.
pub fn version() -> u32 {
    // SAFETY: the call has no conditions.
    unsafe { lr1_sys::lr1_version() }
}

/// Asks the library a question on a grammar, as the programs `lrtab` and `lrshow` are asked. `words`
/// are those after FILE on the command line of either program.
///
/// ```
/// let answer = lr1::ask("S = \"x\"", &["S", "parse", "9", "x"], lr1::Method::Lane)?;
/// assert_eq!(answer.text, "[S: \"x\"]\n");
/// # Ok::<(), lr1::Error>(())
/// ```
pub fn ask(text: impl AsRef<[u8]>, words: &[impl AsRef<str>], method: Method) -> Result<Answer, Error> {
    let words: Vec<&str> = words.iter().map(AsRef::as_ref).collect();
    if let Some(word) = words.iter().find(|it| it.contains('\0')) {
        return Err(Error::Word(word.to_string()));
    }
    let (text, words) = (text.as_ref(), words.join("\0"));
    let mut out = Vec::new();
    let mut length = ROOM;
    loop {
        out.try_reserve_exact(length).map_err(|_| Error::OutOfMemory)?;
        out.resize(length, 0);
        let status = call(text, words.as_bytes(), method, &mut out, &mut length);
        if status == lr1_sys::LR1_NO_MEMORY {
            return Err(Error::OutOfMemory);
        }
        if length <= out.len() {
            out.truncate(length);
            return answer(status, out);
        }
    }
}

fn call(text: &[u8], words: &[u8], method: Method, out: &mut [u8], length: &mut usize) -> u8 {
    // SAFETY: each pointer is that of a slice or of a reference, with its length. `out` and `length`
    // are borrowed mutably, so nothing overlaps them.
    unsafe {
        lr1_sys::lr1_ask(
            text.as_ptr(),
            text.len(),
            words.as_ptr(),
            words.len(),
            method == Method::Canonical,
            out.as_mut_ptr(),
            out.len(),
            length,
        )
    }
}

fn answer(status: u8, out: Vec<u8>) -> Result<Answer, Error> {
    let text = String::from_utf8(out).map_err(|why| Error::Answer(why.to_string()))?;
    match status_of(status) {
        Some(status) => Ok(Answer { status, text }),
        None => Err(Error::Answer(format!("status {status}: {text}"))),
    }
}

fn status_of(status: u8) -> Option<Status> {
    match status {
        lr1_sys::LR1_OK => Some(Status::Ok),
        lr1_sys::LR1_REFUSED => Some(Status::Refused),
        lr1_sys::LR1_FAULT => Some(Status::Fault),
        _ => None,
    }
}

/// The status and the numbers of the tables of a grammar, which `docs/FORMATS.md` describes. There
/// are numbers only if the status is `Ok`. It is `Refused` for conflicts.
///
/// ```
/// let (status, numbers) = lr1::table_numbers("S = \"x\"", "S", lr1::Method::Lane)?;
/// assert_eq!((status, &numbers[3..8]), (lr1::Status::Ok, &[1, 1, 1, 1, 2][..]));
/// # Ok::<(), lr1::Error>(())
/// ```
pub fn table_numbers(
    text: impl AsRef<[u8]>,
    start: &str,
    method: Method,
) -> Result<(Status, Vec<u32>), Error> {
    numbers(text.as_ref(), start.as_bytes(), method, false)
}

/// The same as [`table_numbers`], with the items of each state. [`check`] needs them.
pub fn table_numbers_with_items(
    text: impl AsRef<[u8]>,
    start: &str,
    method: Method,
) -> Result<(Status, Vec<u32>), Error> {
    numbers(text.as_ref(), start.as_bytes(), method, true)
}

fn numbers(text: &[u8], start: &[u8], method: Method, items: bool) -> Result<(Status, Vec<u32>), Error> {
    let mut out = Vec::new();
    let mut length = ROOM;
    loop {
        out.try_reserve_exact(length).map_err(|_| Error::OutOfMemory)?;
        out.resize(length, 0);
        let status = call_for_tables(text, start, method, items, &mut out, &mut length);
        if status == lr1_sys::LR1_NO_MEMORY {
            return Err(Error::OutOfMemory);
        }
        if length <= out.len() {
            out.truncate(length);
            let status = status_of(status).ok_or_else(|| Error::Answer(format!("status {status}")))?;
            return Ok((status, out));
        }
    }
}

fn call_for_tables(
    text: &[u8],
    start: &[u8],
    method: Method,
    items: bool,
    out: &mut [u32],
    length: &mut usize,
) -> u8 {
    // SAFETY: each pointer is that of a slice or of a reference, with its length. `out` and `length`
    // are borrowed mutably, so nothing overlaps them.
    unsafe {
        lr1_sys::lr1_tables(
            text.as_ptr(),
            text.len(),
            start.as_ptr(),
            start.len(),
            method == Method::Canonical,
            items,
            out.as_mut_ptr(),
            out.len(),
            length,
        )
    }
}

/// Checks whether tables are faithful to a grammar, whatever program made them. They are numbers with
/// items, which `docs/FORMATS.md` describes. The status is `Ok` for faithful tables, and there is no
/// text then. It is `Refused` for tables that do not pass the check, and `Fault` for a fault of the
/// grammar, the start symbol or the numbers.
///
/// ```
/// let (_, mut numbers) = lr1::table_numbers_with_items("S = \"x\"", "S", lr1::Method::Lane)?;
/// assert_eq!(lr1::check("S = \"x\"", "S", &numbers)?.status, lr1::Status::Ok);
/// numbers[1] = 2;
/// let answer = lr1::check("S = \"x\"", "S", &numbers)?;
/// assert_eq!(answer.text, "the tables: place 1: version 2 is unknown\n");
/// # Ok::<(), lr1::Error>(())
/// ```
pub fn check(text: impl AsRef<[u8]>, start: &str, numbers: &[u32]) -> Result<Answer, Error> {
    let text = text.as_ref();
    let mut out = vec![0; MESSAGE];
    let mut length = MESSAGE;
    let mut status = call_for_check(text, start.as_bytes(), numbers, &mut out, &mut length);
    if length > out.len() {
        out.try_reserve_exact(length - MESSAGE)
            .map_err(|_| Error::OutOfMemory)?;
        out.resize(length, 0);
        status = call_for_check(text, start.as_bytes(), numbers, &mut out, &mut length);
    }
    if status == lr1_sys::LR1_NO_MEMORY {
        return Err(Error::OutOfMemory);
    }
    out.truncate(length);
    answer(status, out)
}

fn call_for_check(text: &[u8], start: &[u8], numbers: &[u32], out: &mut [u8], length: &mut usize) -> u8 {
    // SAFETY: each pointer is that of a slice or of a reference, with its length. `out` and `length`
    // are borrowed mutably, so nothing overlaps them.
    unsafe {
        lr1_sys::lr1_check(
            text.as_ptr(),
            text.len(),
            start.as_ptr(),
            start.len(),
            numbers.as_ptr(),
            numbers.len(),
            out.as_mut_ptr(),
            out.len(),
            length,
        )
    }
}
