//! The C functions of the library, as its header declares them.
//! A slice passes as a pointer and then its length in elements.

/// A row of the refusal table. `no` is 0 if nothing was refused.
#[repr(C)]
#[derive(Clone, Copy, Debug, PartialEq, Eq)]
pub struct Refusal {
    pub no: u32,
    pub value: u32,
    pub place: usize,
}

/// A place in a text; both numbers begin at 1.
#[repr(C)]
#[derive(Clone, Copy, Debug, PartialEq, Eq)]
pub struct Position {
    pub line: usize,
    pub column: usize,
}

/// A row of the refusal table, with the number of tokens. `no` is 0 if nothing was refused.
#[repr(C)]
#[derive(Clone, Copy, Debug, PartialEq, Eq)]
pub struct Lexed {
    pub no: u32,
    pub value: u32,
    pub place: usize,
    pub tokens: u32,
}

/// A row of the refusal table, with the number of records of each table. `no` is 0 if nothing was refused.
#[repr(C)]
#[derive(Clone, Copy, Debug, Default, PartialEq, Eq)]
pub struct Parsed {
    pub no: u32,
    pub value: u32,
    pub place: usize,
    pub tokens: u32,
    pub lines: u32,
    pub expressions: u32,
    pub types: u32,
}

/// A row of the refusal table, with the number of records of each table up to the errors. `no` is 0 if nothing was refused.
#[repr(C)]
#[derive(Clone, Copy, Debug, Default, PartialEq, Eq)]
pub struct Read {
    pub no: u32,
    pub value: u32,
    pub place: usize,
    pub tokens: u32,
    pub lines: u32,
    pub expressions: u32,
    pub types: u32,
    pub names: u32,
    pub nodes: u32,
    pub errors: u32,
}

/// A part of a source, in bytes; 0, 0 where there is none.
#[repr(C)]
#[derive(Clone, Copy, Debug, Default, PartialEq, Eq)]
pub struct Span {
    pub start: u32,
    pub len: u32,
}

/// What listing gives: 1 and how many bytes were written, or 0 and 0 if the text has no room.
#[repr(C)]
#[derive(Clone, Copy, Debug, Default, PartialEq, Eq)]
pub struct Listed {
    pub listed: u32,
    pub len: usize,
}

/// The limits of a source, and the words of one record of each table.
#[repr(C)]
#[derive(Clone, Copy, Debug, PartialEq, Eq)]
pub struct Limits {
    pub source_bytes: u32,
    pub records: u32,
    pub depth: u32,
    pub token_words: u32,
    pub line_words: u32,
    pub expression_words: u32,
    pub type_words: u32,
    pub name_words: u32,
    pub node_words: u32,
    pub error_words: u32,
    pub work_words: u32,
}

extern "C" {
    pub fn zaghdurem_check_text(source: *const u8, source_len: usize) -> Refusal;

    pub fn zaghdurem_offset_to_position(
        source: *const u8,
        source_len: usize,
        offset: usize,
    ) -> Position;

    pub fn zaghdurem_lex_all(
        source: *const u8,
        source_len: usize,
        tokens: *mut u32,
        tokens_len: usize,
    ) -> Lexed;

    pub fn zaghdurem_parse_line_vector(
        source: *const u8,
        source_len: usize,
        jets: *const u8,
        jets_len: usize,
        tokens: *mut u32,
        tokens_len: usize,
        lines: *mut u32,
        lines_len: usize,
        expressions: *mut u32,
        expressions_len: usize,
        types: *mut u32,
        types_len: usize,
    ) -> Parsed;

    pub fn zaghdurem_read(
        source: *const u8,
        source_len: usize,
        jets: *const u8,
        jets_len: usize,
        tokens: *mut u32,
        tokens_len: usize,
        lines: *mut u32,
        lines_len: usize,
        expressions: *mut u32,
        expressions_len: usize,
        types: *mut u32,
        types_len: usize,
        names: *mut u32,
        names_len: usize,
        nodes: *mut u32,
        nodes_len: usize,
        errors: *mut u32,
        errors_len: usize,
        work: *mut u32,
        work_len: usize,
    ) -> Read;

    pub fn zaghdurem_span_text(source: *const u8, source_len: usize, start: u32, len: u32) -> Span;

    pub fn zaghdurem_name_text(
        source: *const u8,
        source_len: usize,
        names: *const u32,
        names_len: usize,
        count: u32,
        number: u32,
    ) -> Span;

    pub fn zaghdurem_next_root(
        names: *const u32,
        names_len: usize,
        name_count: u32,
        nodes: *const u32,
        nodes_len: usize,
        node_count: u32,
        after: u32,
    ) -> u32;

    pub fn zaghdurem_list(
        source: *const u8,
        source_len: usize,
        jets: *const u8,
        jets_len: usize,
        tokens: *mut u32,
        tokens_len: usize,
        lines: *mut u32,
        lines_len: usize,
        expressions: *mut u32,
        expressions_len: usize,
        types: *mut u32,
        types_len: usize,
        names: *mut u32,
        names_len: usize,
        nodes: *mut u32,
        nodes_len: usize,
        errors: *mut u32,
        errors_len: usize,
        work: *mut u32,
        work_len: usize,
        out: *mut u8,
        out_len: usize,
    ) -> Listed;

    pub fn zaghdurem_literal_byte(
        source: *const u8,
        source_len: usize,
        start: u32,
        len: u32,
        index: u32,
    ) -> u32;

    pub fn zaghdurem_limits() -> Limits;

    pub fn zaghdurem_word(
        table: *const u32,
        table_len: usize,
        width: u32,
        number: u32,
        word: u32,
    ) -> u32;
}
