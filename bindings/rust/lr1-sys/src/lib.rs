//! The calls of the C library `lr1`, as its header `lr1.h` has them. The crate `lr1` is the safe
//! face of these calls.
#![no_std]
#![deny(missing_docs)]

/// The version of the calls of this crate.
pub const LR1_VERSION: u32 = 1;
/// There are tables, a parse, an action or a goto, or nothing to report, or tables are faithful.
pub const LR1_OK: u8 = 0;
/// There are conflicts or warnings, there is no action or goto, a parse was refused or reached its
/// limit, or tables do not pass the check.
pub const LR1_REFUSED: u8 = 1;
/// The text, the words or the start symbol have a fault, or the numbers are not those of tables.
pub const LR1_FAULT: u8 = 2;
/// `malloc` or `realloc` returned a null pointer.
pub const LR1_NO_MEMORY: u8 = 3;
/// The first number of a shift.
pub const LR1_SHIFT: u32 = 0;
/// The first number of a reduction.
pub const LR1_REDUCE: u32 = 1;
/// The first number of the last pair of a parse that was refused.
pub const LR1_STOP: u32 = 2;
/// The first number of the last pair of a parse that reached its limit.
pub const LR1_LIMIT: u32 = 3;

extern "C" {
    /// Returns the version of the calls that are linked.
    pub fn lr1_version() -> u32;

    /// Writes what the program `lrtab` or `lrshow` prints of a grammar. `words` are those after FILE
    /// on the command line of the program, with a byte 0 between two of them. As much of the answer as
    /// fits goes to `out`, and the number of its bytes to `length`.
    ///
    /// # Safety
    ///
    /// - `text` and `words` can be read for `text_length` and `words_length` bytes.
    /// - `out` can be read and written for `room` bytes, which are initialized, and `length` for one
    ///   `usize`. They overlap no other memory of the call.
    /// - No pointer is null, also for 0 bytes.
    pub fn lr1_ask(
        text: *const u8,
        text_length: usize,
        words: *const u8,
        words_length: usize,
        canonical: bool,
        out: *mut u8,
        room: usize,
        length: *mut usize,
    ) -> u8;

    /// Writes the LR(1) tables of a grammar as numbers, with the items of each state if `items` is
    /// true. `start` is the name of the start symbol. As many of the numbers as fit go to `out`, and
    /// how many there are to `length`. There are none unless the result is [`LR1_OK`].
    ///
    /// # Safety
    ///
    /// - `text` and `start` can be read for `text_length` and `start_length` bytes.
    /// - `out` can be read and written for `room` numbers, which are initialized, and `length` for
    ///   one `usize`. They overlap no other memory of the call.
    /// - No pointer is null, also for 0 bytes, and `out` and `length` are aligned.
    pub fn lr1_tables(
        text: *const u8,
        text_length: usize,
        start: *const u8,
        start_length: usize,
        canonical: bool,
        items: bool,
        out: *mut u32,
        room: usize,
        length: *mut usize,
    ) -> u8;

    /// Checks whether tables, which are numbers with items, are faithful to a grammar. As much of a
    /// message as fits goes to `out`, and the number of its bytes to `length`. There is no message if
    /// the result is [`LR1_OK`].
    ///
    /// # Safety
    ///
    /// - `text` and `start` can be read for `text_length` and `start_length` bytes, and `numbers` for
    ///   `count` numbers.
    /// - `out` can be read and written for `room` bytes, which are initialized, and `length` for one
    ///   `usize`. They overlap no other memory of the call.
    /// - No pointer is null, also for 0 bytes, and `numbers` and `length` are aligned.
    pub fn lr1_check(
        text: *const u8,
        text_length: usize,
        start: *const u8,
        start_length: usize,
        numbers: *const u32,
        count: usize,
        out: *mut u8,
        room: usize,
        length: *mut usize,
    ) -> u8;

    /// Writes what a state does on a token, by the numbers of tables: [`LR1_SHIFT`] and the next state,
    /// or [`LR1_REDUCE`], the production, its nonterminal and the length of its right side. As many of
    /// the numbers as fit go to `out`, and how many there are to `length`. There are none unless the
    /// result is [`LR1_OK`].
    ///
    /// # Safety
    ///
    /// - `tables` can be read for `tables_length` numbers.
    /// - `out` can be read and written for `room` numbers, which are initialized, and `length` for one
    ///   `usize`. They overlap no other memory of the call.
    /// - No pointer is null, also for 0 numbers, and each is aligned.
    pub fn lr1_action(
        tables: *const u32,
        tables_length: usize,
        state: u32,
        token: u32,
        out: *mut u32,
        room: usize,
        length: *mut usize,
    ) -> u8;

    /// Writes the state to which a state leads on a nonterminal, by the numbers of tables. It goes to
    /// `out` if there is room, and how many numbers there are to `length`. There is none unless the
    /// result is [`LR1_OK`].
    ///
    /// # Safety
    ///
    /// The same as for [`lr1_action`].
    pub fn lr1_goto(
        tables: *const u32,
        tables_length: usize,
        state: u32,
        nonterminal: u32,
        out: *mut u32,
        room: usize,
        length: *mut usize,
    ) -> u8;

    /// Parses tokens by the numbers of tables, in at most `limit` steps. As many of the numbers of the
    /// answer as fit go to `out`, how many there are to `length`, and how many tokens were shifted to
    /// `read`. There are two numbers for each step: [`LR1_SHIFT`] and the token, or [`LR1_REDUCE`] and
    /// the production. If the result is [`LR1_REFUSED`], the last two are [`LR1_STOP`] or [`LR1_LIMIT`],
    /// and the state on top of the stack.
    ///
    /// # Safety
    ///
    /// - `tables` and `tokens` can be read for `tables_length` and `tokens_length` numbers.
    /// - `out` can be read and written for `room` numbers, which are initialized, and `length` and
    ///   `read` for one `usize` each. They overlap no other memory of the call.
    /// - No pointer is null, also for 0 numbers, and each is aligned.
    pub fn lr1_parse(
        tables: *const u32,
        tables_length: usize,
        tokens: *const u32,
        tokens_length: usize,
        limit: usize,
        out: *mut u32,
        room: usize,
        length: *mut usize,
        read: *mut usize,
    ) -> u8;

    /// Writes the tokens that may come after tokens, by the numbers of tables. As many of them as fit
    /// go to `out`, and how many there are to `length`. There are none unless the result is [`LR1_OK`].
    ///
    /// # Safety
    ///
    /// The same as for [`lr1_parse`], without `read`.
    pub fn lr1_expected(
        tables: *const u32,
        tables_length: usize,
        tokens: *const u32,
        tokens_length: usize,
        limit: usize,
        out: *mut u32,
        room: usize,
        length: *mut usize,
    ) -> u8;
}
