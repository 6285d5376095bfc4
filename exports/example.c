/* All twelve calls: eight on one book, x points to itself, with one variable and one location; and four in the ordinary
 * profile, on a book that tells it from the strong one.
 *
 *     cc -Wall -Wextra -Werror -O2 exports/example.c crates/exports/out/libexports.a -o crates/exports/out/example && crates/exports/out/example
 */
#include <inttypes.h>
#include <stdio.h>

#include "hollyspool.h"

static void print_answer(const char *call, hollyspool_answer answer)
{
    printf("%s: number %" PRIu64 " place %" PRIu64 " tried %" PRIu64 "\n", call, answer.number, answer.place, answer.tried);
}

static void print_bytes(const char *name, const uint8_t *bytes, size_t length)
{
    printf("%s:", name);
    for (size_t at = 0; at < length; at++) {
        printf(" %02x", bytes[at]);
    }
    printf("\n");
}

/* The length of a book, which its bytes 9 and 10 tell: that of its second body, low first, behind 14 bytes of contents and
 * bounds. */
static size_t book_length(const uint8_t *book)
{
    return 14 + book[9] + 256u * book[10];
}

static int print_ordinary(void);

int main(void)
{
    static const uint8_t book[] = {2, 1, 11, 0, 3, 0, 2, 14, 0, 3, 0, 1, 1, 1, 3, 1, 1};
    static const uint8_t assignment[] = {1, 1, 1};
    static const char text[] = "(pto x x)";
    static uint8_t encoding[HOLLYSPOOL_MOST_ENCODED];
    static uint8_t exported[HOLLYSPOOL_MOST_TEXT + 1];
    uint8_t imported[HOLLYSPOOL_MOST_BOOK];
    uint8_t model[HOLLYSPOOL_MOST_MODEL];

    /* The same book from its text. A string's last byte, 0, is not part of the text. */
    const uint8_t *letters = (const uint8_t *)text;
    print_answer("import", hollyspool_import(letters, sizeof text - 1, 1, 1, imported, sizeof imported));
    print_bytes("book", imported, book_length(imported));
    /* A refusal, for comparison: the text stops before its last bracket. */
    print_answer("import", hollyspool_import(letters, sizeof text - 2, 1, 1, imported, sizeof imported));

    /* And its text again. The output is clear and has a byte more than any text, so that a 0 ends the text. */
    print_answer("export", hollyspool_export(book, sizeof book, exported, sizeof exported));
    printf("text: %s\n", (const char *)exported);

    print_answer("read", hollyspool_read(book, sizeof book));
    /* A refusal, for comparison: the last byte is missing, so the body of entry 1 runs past the book. */
    print_answer("read", hollyspool_read(book, sizeof book - 1));

    for (uint64_t entry = 0; entry < 2; entry++) {
        hollyspool_stretch body = hollyspool_body(book, sizeof book, entry);
        print_bytes("body", book + body.start, (size_t)body.length);
    }

    print_answer("search", hollyspool_search(book, sizeof book, 5, model, sizeof model));
    hollyspool_answer found = hollyspool_search(book, sizeof book, 1000000, model, sizeof model);
    print_answer("search", found);
    if (found.number != HOLLYSPOOL_YES) {
        return 1;
    }
    const size_t model_length = 2; /* v + n */
    print_bytes("model", model, model_length);
    print_answer("judge", hollyspool_judge(book, sizeof book, model, model_length));

    hollyspool_answer encoded = hollyspool_encode(book, sizeof book, encoding, sizeof encoding);
    print_answer("encode", encoded);
    if (encoded.number != HOLLYSPOOL_YES) {
        return 1;
    }
    print_bytes("encoding", encoding, book_length(encoding));
    print_answer("assign", hollyspool_assign(book, sizeof book, assignment, sizeof assignment));
    return print_ordinary();
}

/* Two parts that both have cells, over two locations and no variables. Cell 1 holds 2 and cell 2 holds nil: the parts meet at
 * 2, which no variable names, so that only the ordinary profile takes them as separate. */
static int print_ordinary(void)
{
    static const uint8_t book[] = {2, 1, 11, 0, 3, 0, 2, 14, 0, 15, 0, 0, 2, 2, 1, 0, 0, 8, 0, 0, 1, 0, 0, 8, 2, 0, 9, 1, 3};
    static const uint8_t cells[] = {2, 0};
    /* Array 0 has the cells' values; set 0 is both cells, and each part one of them. */
    static const uint8_t assignment[] = {2, 0, 3, 1, 2};
    static uint8_t encoding[HOLLYSPOOL_MOST_ENCODED];
    uint8_t model[HOLLYSPOOL_MOST_MODEL];

    print_answer("judge", hollyspool_judge(book, sizeof book, cells, sizeof cells));
    print_answer("judge_ordinary", hollyspool_judge_ordinary(book, sizeof book, cells, sizeof cells));

    hollyspool_answer found = hollyspool_search_ordinary(book, sizeof book, 1000000, model, sizeof model);
    print_answer("search_ordinary", found);
    if (found.number != HOLLYSPOOL_YES) {
        return 1;
    }
    print_bytes("model", model, sizeof cells);

    hollyspool_answer encoded = hollyspool_encode_ordinary(book, sizeof book, encoding, sizeof encoding);
    print_answer("encode_ordinary", encoded);
    if (encoded.number != HOLLYSPOOL_YES) {
        return 1;
    }
    printf("rows: %u\n", (unsigned)(book_length(encoding) - 14) / 10);
    print_answer("assign", hollyspool_assign(book, sizeof book, assignment, sizeof assignment));
    print_answer("assign_ordinary", hollyspool_assign_ordinary(book, sizeof book, assignment, sizeof assignment));
    return 0;
}
