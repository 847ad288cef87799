/* Prints the roots of the program on standard input, one name to a line. */
#include <stdio.h>

#include "zaghdurem.h"

int main(void) {
    static uint8_t source[32769];
    static uint32_t tokens[3072], lines[5120], expressions[6144], types[4096], names[4096], nodes[8192], errors[4096], work[4096];
    size_t len = fread(source, 1, sizeof source, stdin);
    ZaghduremRead read = zaghdurem_read(source, len, NULL, 0, tokens, 3072, lines, 5120, expressions, 6144, types, 4096, names,
                                        4096, nodes, 8192, errors, 4096, work, 4096);
    if (read.no != 0) {
        fprintf(stderr, "refused %u at byte %zu\n", (unsigned)read.no, read.place);
        return 1;
    }
    for (uint32_t n = 0; (n = zaghdurem_next_root(names, 4096, read.names, nodes, 8192, read.nodes, n)) != 0;) {
        ZaghduremSpan name = zaghdurem_name_text(source, len, names, 4096, read.names, n);
        printf("%.*s\n", (int)name.len, (const char *)source + name.start);
    }
    return 0;
}
