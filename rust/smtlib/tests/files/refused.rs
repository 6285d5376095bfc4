//! What is not known is refused at its byte.

use crate::HEAD;

/// Files behind the first commands; `@` marks the byte, and is no part of the file.
const REFUSED: &[(&str, &str)] = &[
    ("@", "the end of a file that asserts nothing"),
    ("(check-sat)@", "the end of a file that asserts nothing"),
    // Commands.
    ("@(push 1)", "push, which is not known here in this form"),
    (
        "(assert emp) (check-sat) @(assert emp)",
        "an assertion after check-sat",
    ),
    ("@(get-value (x))", "get-value, which is not known"),
    ("@(assert emp emp)", "assert, which is not known"),
    (
        "@(declare-fun f (Loc) Loc)",
        "declare-fun, which is not known",
    ),
    ("@(declare-sort Pair 1)", "declare-sort, which is not known"),
    ("(@assume emp)", "a word that is no command"),
    ("@()", "an empty list"),
    ("@assert", "a word outside of every command"),
    (
        "@(define-fun f ((a Loc)) Loc a)",
        "define-fun, which is not known",
    ),
    // Sorts.
    (
        "(declare-sort Data 0) (declare-const d @Data)",
        "Data, a second sort",
    ),
    (
        "(declare-const b @Bool)",
        "a sort that is not the locations'",
    ),
    (
        "(declare-const b @(_ BitVec 8))",
        "a sort that is not the locations'",
    ),
    (
        "(declare-const b @Unheard)",
        "a sort that is not the locations'",
    ),
    (
        "(declare-heap (@(Loc Loc) Loc))",
        "a sort that is not the locations'",
    ),
    (
        "@(declare-heap (Loc Loc) (Loc Loc))",
        "declare-heap, which is not known",
    ),
    (
        "@(declare-datatypes ((Cell 0)) (((cell (next Loc) (data Loc)))))",
        "a datatype other than one cell",
    ),
    (
        "@(declare-datatypes ((Cell 0)) (((one (next Loc)) (none))))",
        "a datatype other than one cell",
    ),
    // Names.
    ("(declare-const @x Loc)", "x, which has a meaning already"),
    (
        "(define-fun @ls ((a Loc) (b Loc)) Bool emp)",
        "ls, which has a meaning already",
    ),
    (
        "(define-fun @and () Bool emp)",
        "and, which has a meaning already",
    ),
    ("(define-fun f () Bool @f)", "f, which is not known here"),
    ("(assert (pto x @w))", "w, which is not declared"),
    ("(assert (pto x @|a w|))", "|a w|, which is not declared"),
    // Formulas.
    (
        "(assert (@exists ((u Loc)) (pto x u)))",
        "exists, which is not known here",
    ),
    ("(assert (@dls x y))", "dls, which is not known here"),
    (
        "(assert (@data_pto x y))",
        "data_pto, which is not known here",
    ),
    ("(assert @x)", "x, a location, where a formula must stand"),
    ("(assert @5)", "5 where a formula must stand"),
    ("(assert @(and))", "a connective over nothing"),
    (
        "(assert @(not emp emp))",
        "2 formulas here, where 1 must stand",
    ),
    (
        "(assert @(wand emp))",
        "1 formulas here, where 2 must stand",
    ),
    (
        "(assert @((and emp) emp))",
        "a list that begins with no word",
    ),
    ("(assert @(= x))", "= over 1 locations"),
    ("(assert @(ls x))", "ls over other than two locations"),
    (
        "(assert @(pto x y z))",
        "pto over other than a location and a value",
    ),
    (
        "(assert (pto x @5))",
        "something other than a constant or nil",
    ),
    (
        "(assert (pto x @(next y)))",
        "something other than a constant or nil",
    ),
    (
        "(assert (let ((f emp)) (pto x @f)))",
        "f, a formula, where a location must stand",
    ),
    (
        "(assert (let (@(f)) emp))",
        "a binding of other than a name and a value",
    ),
    (
        "@(define-fun-rec ls ((a Loc) (b Loc)) Bool (or emp (ls a b)))",
        "a recursive definition other than that of list segments",
    ),
    // What is no list of words at all.
    ("@(assert emp", "a list without its closing bracket"),
    ("(assert emp)@)", "a closing bracket without its list"),
    ("(assert @|emp)", "a symbol in bars without its end"),
    ("(set-info :source @\"emp)", "a string without its end"),
    ("(assert @{emp})", "'{', which begins no word"),
];

#[test]
fn at_its_byte() {
    for (file, words) in REFUSED {
        let whole = format!("{HEAD}{file}");
        let byte = whole.find('@').expect("a mark");
        let unknown = smtlib::translate(whole.replace('@', "").as_bytes()).unwrap_err();
        assert!(unknown.what.starts_with(words), "{file}: {}", unknown.what);
        assert_eq!(unknown.byte, byte, "{file}");
    }
}

/// A value in a cell that has a type needs its constructor.
#[test]
fn cells_with_a_type() {
    let file = "(declare-sort L 0) (declare-datatype C ((c (next L)))) (declare-heap (L C))
        (declare-const x L) (assert (pto x ";
    let translated = |value: &str| smtlib::translate(format!("{file}{value}))").as_bytes());
    assert_eq!(
        translated("(c x)").expect("it is known").text,
        "(pto x x)\n"
    );
    assert_eq!(translated("x").unwrap_err().byte, file.len());
    assert_eq!(translated("(d x)").unwrap_err().byte, file.len());
}

/// A formula that would not end when it is written out, or is nested without end.
#[test]
fn too_large() {
    let doubled = (1..60).map(|n| format!("(let ((f{n} (and f{m} f{m}))) ", m = n - 1));
    let file = format!(
        "{HEAD}(assert (let ((f0 emp)) {}f59{}))",
        doubled.collect::<String>(),
        ")".repeat(59)
    );
    let unknown = smtlib::translate(file.as_bytes()).unwrap_err();
    assert!(unknown.what.contains("1000 items"), "{}", unknown.what);
    let nested = format!("{HEAD}{}", "(".repeat(1_000_000));
    let unknown = smtlib::translate(nested.as_bytes()).unwrap_err();
    assert_eq!(unknown.what, "lists deeper than 300");
    let xor = format!("{HEAD}(assert (xor{}))", " emp".repeat(1_000));
    assert!(smtlib::translate(xor.as_bytes()).is_err());
}

/// Every beginning of a file, and bytes that are no text, are answered.
#[test]
fn any_bytes() {
    let file = include_bytes!("slcomp.smt2");
    for length in 0..file.len() {
        let _ = smtlib::translate(&file[..length]);
        let mut damaged = file.to_vec();
        damaged[length] ^= 0x80;
        let _ = smtlib::translate(&damaged);
        damaged[length] = b"()|\"; "[length % 6];
        let _ = smtlib::translate(&damaged);
    }
}
