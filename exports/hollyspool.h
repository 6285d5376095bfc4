/* The proved bench, for C. Link libexports.a, which `rt lib`, run in crates/exports, leaves in crates/exports/out.
 *
 * Each call takes any bytes at all. A slice is a pointer and a length; the pointer is never null, even where the length is
 * 0, and an output overlaps nothing else. Nothing is kept after a call. Documents 01 and 02 say what each call answers. */
#ifndef HOLLYSPOOL_H
#define HOLLYSPOOL_H

#include <stddef.h>
#include <stdint.h>

#ifdef __cplusplus
extern "C" {
#endif

/* The numbers given back. The place of a refusal is the node (14 to 16), the byte (18, 22, 26 to 28) or the entry (23, 24) that
 * it names, from 0, or the variable (25), from 1. */
enum hollyspool_number {
    HOLLYSPOOL_YES = 0,               /* fits, found, written, satisfied */
    HOLLYSPOOL_NO = 1,                /* doesn't fit; none within the bounds; not satisfied */
    HOLLYSPOOL_SPENT = 2,             /* budget spent */
    HOLLYSPOOL_BOOK_LENGTH = 10,      /* book under 11 or over 206 bytes */
    HOLLYSPOOL_CONTENTS = 11,         /* entry count not 2 */
    HOLLYSPOOL_BOUNDS = 12,           /* bounds body not 3 bytes, or a bound over 8 */
    HOLLYSPOOL_FORMULA = 13,          /* formula empty or not a multiple of 3 */
    HOLLYSPOOL_OPERATOR = 14,         /* operator not 1 to 10 */
    HOLLYSPOOL_OPERAND = 15,          /* variable over v, child not lower, b of 8 not 0 */
    HOLLYSPOOL_TREE = 16,             /* not a tree: a node but the root is not used exactly once */
    HOLLYSPOOL_MODEL_LENGTH = 17,     /* model of wrong length */
    HOLLYSPOOL_MODEL_VALUE = 18,      /* model's value out of range */
    HOLLYSPOOL_NOT_ENCODABLE = 19,    /* operator 9 or 10 under a negation */
    HOLLYSPOOL_OUTPUT_SHORT = 20,     /* output too short */
    HOLLYSPOOL_ASSIGNMENT_LENGTH = 21, /* assignment of wrong length */
    HOLLYSPOOL_ASSIGNMENT_VALUE = 22, /* assignment's value out of range */
    HOLLYSPOOL_ENTRY_KIND = 23,       /* entry of a wrong kind */
    HOLLYSPOOL_ENTRY_STRETCH = 24,    /* entry with a wrong offset or length */
    HOLLYSPOOL_STRAY_VARIABLE = 25,   /* declared variable that no atom names; from a search alone */
    HOLLYSPOOL_BAD_TEXT = 26,         /* text not well-formed: its first byte with which none can go on, or its length */
    HOLLYSPOOL_MANY_NODES = 27,       /* text with over 64 nodes: the last byte of the item that passes 64 */
    HOLLYSPOOL_MANY_NAMES = 28        /* text with a ninth name: its first byte */
};

/* An output of this many bytes is never too short for a search, for an encoding, for an import, or for an export. */
#define HOLLYSPOOL_MOST_MODEL 16
#define HOLLYSPOOL_MOST_ENCODED 7654
#define HOLLYSPOOL_MOST_BOOK 206
#define HOLLYSPOOL_MOST_TEXT 1906

/* What every call but body answers. For a search tried is how many candidates are settled, in their order: the lowest that
 * fits is the last of them, or none of them fits; 0 outside search. */
typedef struct {
    uint64_t number;
    uint64_t place;
    uint64_t tried;
} hollyspool_answer;

/* Where a body stands in its book. */
typedef struct {
    uint64_t start;
    uint64_t length;
} hollyspool_stretch;

/* Accepts a book (number 0) or says why not. */
hollyspool_answer hollyspool_read(const uint8_t *book, size_t book_length);

/* The body of entry 0 (bounds) or 1 (formula). Empty for a book refused with 10, 11, 23 or 24, and for any other entry. */
hollyspool_stretch hollyspool_body(const uint8_t *book, size_t book_length, uint64_t entry);

/* Says whether the model fits the book's formula. */
hollyspool_answer hollyspool_judge(const uint8_t *book, size_t book_length, const uint8_t *model, size_t model_length);

/* Looks for the lowest candidate that fits, and writes it, v + n bytes, if its number is below the budget. Output bytes change
 * only with number 0, only at the front, and only as many as are written. Refuses a book with a declared variable that no
 * atom names, as no other call does. */
hollyspool_answer hollyspool_search(const uint8_t *book, size_t book_length, uint64_t budget, uint8_t *out, size_t out_length);

/* Writes the encoding of the book's formula, as a book whose contents say how long it is. Output bytes change as for search. */
hollyspool_answer hollyspool_encode(const uint8_t *book, size_t book_length, uint8_t *out, size_t out_length);

/* Says whether the assignment satisfies the rows that the encoder gives for the book. */
hollyspool_answer hollyspool_assign(const uint8_t *book, size_t book_length, const uint8_t *assignment,
                                    size_t assignment_length);

/* The same four in the ordinary profile, in which operators 9 and 10 ask only that no cell be allocated twice; all else is
 * unchanged. Its encoding has no APART rows. The bytes of an encoding do not say which profile made them, so an assignment for
 * hollyspool_encode_ordinary's rows is to be judged by hollyspool_assign_ordinary, and one for hollyspool_encode's by
 * hollyspool_assign. */
hollyspool_answer hollyspool_judge_ordinary(const uint8_t *book, size_t book_length, const uint8_t *model, size_t model_length);
hollyspool_answer hollyspool_search_ordinary(const uint8_t *book, size_t book_length, uint64_t budget, uint8_t *out,
                                             size_t out_length);
hollyspool_answer hollyspool_encode_ordinary(const uint8_t *book, size_t book_length, uint8_t *out, size_t out_length);
hollyspool_answer hollyspool_assign_ordinary(const uint8_t *book, size_t book_length, const uint8_t *assignment,
                                             size_t assignment_length);

/* Writes the book of the formula that the text means, over n locations and with path bound p. The book's contents say how long
 * it is; its variables are the text's names, numbered as they first appear. A text may be of any length. Output bytes change as
 * for search. */
hollyspool_answer hollyspool_import(const uint8_t *text, size_t text_length, uint64_t n, uint64_t p, uint8_t *out,
                                    size_t out_length);

/* Writes the text of the book's formula, as import reads it, with the variables v1 to v8. The answer has no length, and no byte
 * of a text is 0: clear the output first, then read up to its first 0 byte, or to its end. A text that is too deep or too large
 * to be read back is written all the same. Output bytes change as for search. */
hollyspool_answer hollyspool_export(const uint8_t *book, size_t book_length, uint8_t *out, size_t out_length);

#ifdef __cplusplus
}
#endif

#endif
