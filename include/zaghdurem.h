/* zaghdurem: the reader of Simplicity programs as people write them.
 *
 * Link libzaghdurem.a (`rt lib` in crates/zaghdurem makes it). Every function takes any arguments; nothing is to be tested by
 * the caller. What each one answers is proved to be the definition that its comment names (docs/DEFINITIONS.md).
 * A slice passes as a pointer and then its length in elements; if the length is 0 the pointer is not read. A table that a
 * function writes lies apart from its other arguments. */
#ifndef ZAGHDUREM_H
#define ZAGHDUREM_H

#include <stddef.h>
#include <stdint.h>

#ifdef __cplusplus
extern "C" {
#endif

/* The limits of a reading, and how many words a record of each table has. A lent table has at least `records` times so many
 * words. */
typedef struct {
    uint32_t source_bytes;
    uint32_t records;
    uint32_t depth;
    uint32_t token_words;
    uint32_t line_words;
    uint32_t expression_words;
    uint32_t type_words;
    uint32_t name_words;
    uint32_t node_words;
    uint32_t error_words;
    uint32_t work_words;
} ZaghduremLimits;

/* The limits (definition `limits`). */
ZaghduremLimits zaghdurem_limits(void);

/* A row of the table of refusals: its number (0 for no refusal), the number beside the place, and the place in bytes. */
typedef struct {
    uint32_t no;
    uint32_t value;
    size_t place;
} ZaghduremRefusal;

/* Whether the bytes are UTF-8 by RFC 3629: no refusal, or refusal 3 at the first byte of the first ill-formed sequence
 * (definition `check_text`). Bytes of any length. */
ZaghduremRefusal zaghdurem_check_text(const uint8_t *source, size_t source_len);

/* A line and a column, both from 1. */
typedef struct {
    size_t line;
    size_t column;
} ZaghduremPosition;

/* The line and column of an offset (definition `position_of`), for any bytes, UTF-8 or not: LF starts a line, the column counts
 * characters, and a character begins at every byte outside 128 to 191. An offset past the end counts as the end. */
ZaghduremPosition zaghdurem_offset_to_position(const uint8_t *source, size_t source_len, size_t offset);

/* Word `place`, counted from 0, of record `number`, counted from 1, of a table whose records have `width` words (definition
 * `word_at`). 0 for the number 0, a number past 1,024, a place past the record, and words past the table's end. */
uint32_t zaghdurem_word(const uint32_t *table, size_t table_len, uint32_t width, uint32_t number, uint32_t place);

/* What lexing a source gives: no refusal and so many tokens, or a refusal, its place and the number beside it, and 0
 * tokens. */
typedef struct {
    uint32_t no;
    uint32_t value;
    size_t place;
    uint32_t tokens;
} ZaghduremLexed;

/* Lexes a source into a lent table of tokens, three words each: kind, start, length (definitions `lex_all` and `leaves`).
 * Refusals, in the order they are looked for: 1, the table has fewer words than 1,024 records, and no word is changed; 2,
 * the source has over 32,768 bytes; 3, it is not UTF-8; then, whichever is met first from the left, 4 at the byte where no
 * token matches or 5 at the start of a 1,025th token. Refusals 2 to 5 set the first 1,024 records to zero; otherwise unused
 * records are zero. Words past the first 1,024 records never change. */
ZaghduremLexed zaghdurem_lex_all(const uint8_t *source, size_t source_len, uint32_t *tokens, size_t tokens_len);

/* What parsing a source gives: no refusal and how many records each table has, or a refusal, its place and the number
 * beside it, and no records. */
typedef struct {
    uint32_t no;
    uint32_t value;
    size_t place;
    uint32_t tokens;
    uint32_t lines;
    uint32_t expressions;
    uint32_t types;
} ZaghduremParsed;

/* Parses a source into four lent tables (definitions `parse_all` and `tables_after`). A token has three words: kind, start,
 * length; a line five: name start, name length, expression, source type, target type; an expression six: kind, start, left,
 * right, span start, span length; a type four: kind, left, right, n, where a name has its start and length as left and
 * right. The jets are the pieces of the jet list between newline bytes (10).
 * Refusals, in the order they are looked for: 1, a table has fewer words than 1,024 records, and no word of any is changed;
 * 2 to 5 as `zaghdurem_lex_all` has them; then, whichever is met first in reading order, 6 at a token that the grammar does
 * not take; 7 at a `const` literal whose bit length is no power of two; 8 and 9 at a `fail` literal of under 128 or over
 * 512 bits; 10 at a jet that is not in the list; 11 at a bad power of two; 12 at an exponent over 4,294,967,295; and 13
 * where depth 129 begins, before the token there is looked at. With 7, 8 and 9 stands the bit length, with 11 the exponent.
 * The place of a token that is missing is the source's length. Refusals 2 to 13 set the first 1,024 records of every table
 * to zero; otherwise unused records are zero. Words past the first 1,024 records never change. */
ZaghduremParsed zaghdurem_parse_line_vector(const uint8_t *source, size_t source_len, const uint8_t *jets, size_t jets_len,
                                            uint32_t *tokens, size_t tokens_len, uint32_t *lines, size_t lines_len,
                                            uint32_t *expressions, size_t expressions_len, uint32_t *types,
                                            size_t types_len);

/* What reading a source gives: no refusal and how many records each table has, or a refusal, its place and the number beside
 * it, and no records. Work has no records. */
typedef struct {
    uint32_t no;
    uint32_t value;
    size_t place;
    uint32_t tokens;
    uint32_t lines;
    uint32_t expressions;
    uint32_t types;
    uint32_t names;
    uint32_t nodes;
    uint32_t errors;
} ZaghduremRead;

/* Reads a source into eight lent tables. Tokens, lines, expressions and types are those of `zaghdurem_parse_line_vector`. A
 * name has four words: start, length, expression, node; names stand in the order of their first legal lines. A node has
 * eight: kind, start, name number (0 but for the outermost node of a name), left, right, span start, span length, in-degree;
 * children stand before parents. An error has four: kind (illegal 1, repeated 2, missing 3, incomplete 4), start, name start,
 * name length; first come the errors of lines, in line order, then one for each missing or incomplete node, in node order, at
 * the node's start and with its span as the name. The words of work are used on the way and are zero afterwards.
 * Refusals are those of `zaghdurem_parse_line_vector`, with refusal 1 for any of the eight tables: then no word of any is
 * changed. Refusals 2 to 13 set the first 1,024 records of every table to zero; otherwise unused records are zero. Words past
 * the first 1,024 records never change. */
ZaghduremRead zaghdurem_read(const uint8_t *source, size_t source_len, const uint8_t *jets, size_t jets_len,
                             uint32_t *tokens, size_t tokens_len, uint32_t *lines, size_t lines_len,
                             uint32_t *expressions, size_t expressions_len, uint32_t *types, size_t types_len,
                             uint32_t *names, size_t names_len, uint32_t *nodes, size_t nodes_len,
                             uint32_t *errors, size_t errors_len, uint32_t *work, size_t work_len);

/* A part of a source: where it starts and how many bytes it has. */
typedef struct {
    uint32_t start;
    uint32_t len;
} ZaghduremSpan;

/* The text of a span, as the very part of the source where it stands: the span itself if it lies inside the source, else
 * 0, 0. Any `start` and `len` will do; their sum does not wrap. */
ZaghduremSpan zaghdurem_span_text(const uint8_t *source, size_t source_len, uint32_t start, uint32_t len);

/* The text of the name `number`, counted from 1, of a table of `count` names, as the very part of the source where it stands.
 * 0, 0 for the number 0, a number past `count`, past 1,024 or past the table's end, and a span outside the source; words past the
 * table's end read as 0. */
ZaghduremSpan zaghdurem_name_text(const uint8_t *source, size_t source_len, const uint32_t *names, size_t names_len,
                                  uint32_t count, uint32_t number);

/* The first root behind the name number `after`, as a name number; 0 if there is none. Begin with 0 and go on from each root
 * to have them all, in the order of names. A name is a root if it has a node, and that node's in-degree is 0. A name past
 * `name_count`, past 1,024 or past its table's end is none; nor is one whose node is past `node_count`, past 1,024 or past
 * its table's end. */
uint32_t zaghdurem_next_root(const uint32_t *names, size_t names_len, uint32_t name_count, const uint32_t *nodes,
                             size_t nodes_len, uint32_t node_count, uint32_t after);

/* What listing gives: 1 and how many bytes were written, or 0 and 0 if the text has no room. */
typedef struct {
    uint32_t listed;
    size_t len;
} ZaghduremListed;

/* Reads a source into eight lent tables, as `zaghdurem_read` does, and writes the listing of its nodes, roots and errors, or
 * the row of its refusal, into a lent output. If the text has no room no byte of the output is changed; bytes past the text
 * never are. The tables are as after reading either way. 196,608 bytes of output always suffice. */
ZaghduremListed zaghdurem_list(const uint8_t *source, size_t source_len, const uint8_t *jets, size_t jets_len,
                               uint32_t *tokens, size_t tokens_len, uint32_t *lines, size_t lines_len,
                               uint32_t *expressions, size_t expressions_len, uint32_t *types, size_t types_len,
                               uint32_t *names, size_t names_len, uint32_t *nodes, size_t nodes_len,
                               uint32_t *errors, size_t errors_len, uint32_t *work, size_t work_len,
                               uint8_t *out, size_t out_len);

/* Byte `index`, counted from 0, of the literal at a span of the source (definition `literal_byte`), a number below 256: its
 * bits go first bit highest, four for a hex digit, zeros after the last. 0 past the last byte, and for a span that is no
 * literal. A literal is a span inside the source whose whole text is `0b` and binary digits or `0x` and lower-case hex
 * digits, at least one. Any `start` and `len` will do; their sum does not wrap. */
uint32_t zaghdurem_literal_byte(const uint8_t *source, size_t source_len, uint32_t start, uint32_t len, uint32_t index);

#ifdef __cplusplus
}
#endif

#endif
