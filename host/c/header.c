/* Calls each function as include/zaghdurem.h declares it and prints what it answers; header.expected has what must come. */
#include <stdio.h>
#include <string.h>

#include "zaghdurem.h"

static void text(const char *bytes, size_t len) {
    ZaghduremRefusal r = zaghdurem_check_text((const uint8_t *)bytes, len);
    printf("text %u %zu %u\n", (unsigned)r.no, r.place, (unsigned)r.value);
}

static void place(const char *bytes, size_t offset) {
    ZaghduremPosition p = zaghdurem_offset_to_position((const uint8_t *)bytes, strlen(bytes), offset);
    printf("place %zu:%zu\n", p.line, p.column);
}

static void lex(const char *bytes) {
    static uint32_t t[3072];
    ZaghduremLexed l = zaghdurem_lex_all((const uint8_t *)bytes, strlen(bytes), t, 3072);
    printf("lexed %u %zu %u\n", (unsigned)l.no, l.place, (unsigned)l.tokens);
    printf("records %u %u %u, %u %u %u\n", (unsigned)t[0], (unsigned)t[1], (unsigned)t[2], (unsigned)t[3], (unsigned)t[4],
           (unsigned)t[5]);
}

static void parse(const char *bytes, const char *jets) {
    static uint32_t t[3072], l[5120], e[6144], y[4096];
    const uint8_t *source = (const uint8_t *)bytes, *list = (const uint8_t *)jets;
    ZaghduremParsed p = zaghdurem_parse_line_vector(source, strlen(bytes), list, strlen(jets), t, 3072, l, 5120, e, 6144, y,
                                                    4096);
    printf("parsed %u %zu %u, %u %u %u %u\n", (unsigned)p.no, p.place, (unsigned)p.value, (unsigned)p.tokens,
           (unsigned)p.lines, (unsigned)p.expressions, (unsigned)p.types);
    printf("line %u %u %u %u %u, expression %u %u, type %u %u\n", (unsigned)l[0], (unsigned)l[1], (unsigned)l[2],
           (unsigned)l[3], (unsigned)l[4], (unsigned)e[0], (unsigned)e[1], (unsigned)y[0], (unsigned)y[3]);
}

/* The tables of a reading, in their order. */
static uint32_t tokens[3072], lines[5120], expressions[6144], types[4096], names[4096], nodes[8192], errors[4096], work[4096];

#define TABLES tokens, 3072, lines, 5120, expressions, 6144, types, 4096, names, 4096, nodes, 8192, errors, 4096, work, 4096

static void words(const char *what, const uint32_t *table, size_t count) {
    printf("%s", what);
    for (size_t at = 0; at < count; at++)
        printf(" %u", (unsigned)table[at]);
    printf("\n");
}

static void part(const char *what, const char *bytes, ZaghduremSpan s) {
    printf("%s %u %u \"%.*s\"\n", what, (unsigned)s.start, (unsigned)s.len, (int)s.len, bytes + s.start);
}

static void read(const char *bytes) {
    const uint8_t *source = (const uint8_t *)bytes;
    size_t len = strlen(bytes);
    ZaghduremRead r = zaghdurem_read(source, len, NULL, 0, TABLES);
    printf("read %u %zu %u, %u %u %u %u, %u %u %u\n", (unsigned)r.no, r.place, (unsigned)r.value, (unsigned)r.tokens,
           (unsigned)r.lines, (unsigned)r.expressions, (unsigned)r.types, (unsigned)r.names, (unsigned)r.nodes,
           (unsigned)r.errors);
    words("name", names, 4);
    words("node", nodes, 8);
    words("errors", errors, 12);
    for (uint32_t n = 0; (n = zaghdurem_next_root(names, 4096, r.names, nodes, 8192, r.nodes, n)) != 0;)
        part("root", bytes, zaghdurem_name_text(source, len, names, 4096, r.names, n));
    part("no name", bytes, zaghdurem_name_text(source, len, names, 4096, r.names, r.names + 1));
    part("span", bytes, zaghdurem_span_text(source, len, 1, 3));
    part("no span", bytes, zaghdurem_span_text(source, len, 2, UINT32_MAX));
}

static void list(const char *bytes, size_t room) {
    static uint8_t out[196608];
    memset(out, '.', sizeof out);
    ZaghduremListed l = zaghdurem_list((const uint8_t *)bytes, strlen(bytes), (const uint8_t *)"low", 3, TABLES, out, room);
    printf("listed %u %zu\n%.*s%.2s\n", (unsigned)l.listed, l.len, (int)l.len, (const char *)out, (const char *)out + l.len);
}

static void byte(const char *bytes, uint32_t start, uint32_t len, uint32_t index) {
    unsigned b = (unsigned)zaghdurem_literal_byte((const uint8_t *)bytes, strlen(bytes), start, len, index);
    printf("byte %u\n", b);
}

int main(void) {
    static const uint32_t table[7] = {1, 2, 3, 4, 5, 6, 7};
    ZaghduremLimits l = zaghdurem_limits();
    printf("limits %u %u %u\n", (unsigned)l.source_bytes, (unsigned)l.records, (unsigned)l.depth);
    printf("widths %u %u %u %u %u %u %u %u\n", (unsigned)l.token_words, (unsigned)l.line_words,
           (unsigned)l.expression_words, (unsigned)l.type_words, (unsigned)l.name_words, (unsigned)l.node_words,
           (unsigned)l.error_words, (unsigned)l.work_words);
    text("", 0);
    text("gr\xC3\xBCn", 5);
    text("ab\xC0\xAF", 4);
    place("a\nb\xC3\xBC" "c", 5);
    place("a\nb", 99);
    lex("main := unit");
    lex("a->b");
    parse("main := comp jet_low iden : 2^8 -> 1", "high\nlow");
    parse("a := const 0b111", "");
    read("main := pair a iden\na := unit\n_ := b\nb : 1 -> 1");
    read("a := a )");
    list("main := pair a iden\na := jet_low\n", 196608);
    list("main := b", 67);
    list("main := b", 66);
    list("a := const 0b111", 17);
    byte("const 0x9f4", 6, 5, 1);
    byte("const 0x9f4", 6, 5, 2);
    printf("word %u %u %u\n", (unsigned)zaghdurem_word(table, 7, 3, 2, 0), (unsigned)zaghdurem_word(table, 7, 3, 3, 1),
           (unsigned)zaghdurem_word(table, 7, 3, 0, 0));
    return 0;
}
