#!/usr/bin/env python3
"""Brings this repository's own definitions and lemmas to the toolchain's spelling: words in snake case.

usage: python3 tools/respell.py        at the top of the repository, once, right after the toolchain's port.py

It turns whole words alone, in crates/: the code of each .antt file, and the clauses and `ghost use` lines of each .rt file. A
word is the repository's own if no file takes it from the kit. Where two words would fall together, TABLE names them apart.
Functions of src/, exported names, strings, inputs and outputs keep their names. It proves nothing: the check decides.
"""
import collections
import os
import re
import sys

# Words that the plain rule would make alike, or that a function beside them already has.
TABLE = {
    "all_named": "all_are_named",
    "allNamed": "all_named",
    "apart-rows": "apart_rows_put",
    "apartRows": "apart_row_count",
    "bit-of": "bit_of_is",
    "digit-of": "digit_of_is",
    "digits-at": "digits_at_is",
    "field_own": "own_at",
    "heap-of-number": "heap_of_its_number",
    "in-range": "within_range",
    "laid_out": "reads_laid_out",
    "laidOut": "laid_out",
    "may-meet": "may_meet_alike",
    "model-byte": "model_byte_is",
    "model-heap": "model_heap_is",
    "most-total": "total_is_most",
    "newDigit": "renumbered_digit",
    "new-heap": "new_heap_is",
    "new-stack": "new_stack_is",
    "number-of": "number_of_is",
    "of-book": "of_the_book",
    "out-most": "out_most_is",
    "outMost": "most_outgoing",
    "own-rows": "own_rows_put",
    "ownRows": "own_row_count",
    "ownBytes": "own_byte_count",
    "packed-on": "packed_on_is",
    "pair-rows": "pair_rows_put",
    "part-of": "part_of_pair",
    "pathCap": "cap_of_path",
    "phrase-of": "phrase_of_trace",
    "sep-rows": "sep_rows_put",
    "sept-rows": "sept_rows_put",
    "serves-at": "serves_index",
    "set-byte": "set_byte_is",
    "set-of": "set_of_pair",
    "used-by": "used_by_is",
    "uses-on": "uses_on_is",
    "vars-of": "vars_of_is",
    "word_Bytes": "word_bytes",
    "P1-book": "p1_book",
    "P1-printed": "p1_printed",
    "P1-prints": "p1_prints",
    "P1-shown": "p1_shown",
    "P1-test": "p1_test",
}
# Fields that the check makes, and that a proof cites behind a dot: the kit's to rename.
MADE = re.compile(r"(loop-test|invariant-loop|decreases-loop|shared-slice-known|enum-told|set-low)\d*$")
WORD = re.compile(r"(?<![\w'₀-₉-])[A-Za-z_][\w'₀-₉-]*")
SPAN = re.compile(r"`[^`]*`")
OWN = set(os.listdir("crates"))


def snake(word):
    word = re.sub(r"([a-z0-9])([A-Z])", lambda m: m[1] + "_" + m[2].lower(), word)
    return word.lower().replace("-", "_")


def files():
    for folder, dirs, names in os.walk("crates"):
        dirs[:] = sorted(d for d in dirs if d not in ("out", "must-fail"))
        for name in sorted(names):
            if name.endswith((".antt", ".rt")):
                yield os.path.join(folder, name)


def code(line):
    """A line's code and its comment."""
    at = re.search(r"(^|\s)(--|//)", line)
    return (line, "") if not at else (line[: at.start()], line[at.start() :])


def taken(text):
    """The words that a file takes from the kit."""
    out = set()
    for m in re.finditer(r"^\s*(?:pub |ghost )?use ([\w.]+)\.\{([^}]*)\}", text, re.M):
        path = m[1].split(".")
        if not (path[0] == "Rattle" and len(path) > 1 and path[1] in OWN):
            for item in m[2].split(","):
                out |= set(item.strip().split(" as "))
    return out


def is_ours(word, kit):
    if word in kit or word[0].isupper() and word not in TABLE:
        return False
    dashed = re.search(r"[\w'₀-₉]-\w", word)
    return word in TABLE or bool(dashed) or bool(re.match(r"[a-z][a-z0-9_'-]*[A-Z]", word))


def turned(text, kit, walk):
    """walk: the file is the proof of a function, in which a field behind a dot is a function's call."""

    def words(part):
        def one(m):
            word, dotted = m[0], part[m.start() - 1 : m.start()] == "."
            if not is_ours(word, kit) or dotted and MADE.match(word):
                return word
            if word in TABLE and not (walk and dotted):
                return TABLE[word]
            return snake(word)

        return WORD.sub(one, part)

    out = []
    for line in text.split("\n"):
        part, comment = code(line)
        out.append(words(part) + SPAN.sub(lambda m: words(m[0]), comment))
    return "\n".join(out)


def main():
    texts = {p: open(p, encoding="utf-8").read() for p in files()}
    kit = set().union(*(taken(t) for t in texts.values()))
    count = 0
    for path, text in texts.items():
        if path.endswith(".rt"):
            new = "\n".join(
                turned(l, kit, False) if re.search(r"\b(requires|ensures|ghost|invariant)\b", l) else l
                for l in text.split("\n")
            )
        else:
            new = turned(text, kit, "/proofs/" in path and path.endswith("Proof.antt"))
        if new != text:
            count += 1
            with open(path, "w", encoding="utf-8") as f:
                f.write(new)
    print(f"respell: {count} files")


if __name__ == "__main__":
    sys.exit(main())
