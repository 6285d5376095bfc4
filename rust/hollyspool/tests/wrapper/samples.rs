//! The sample texts and the sample books hold on the same models.

use std::fs;

use hollyspool::{judge, Book, Bounds};

use crate::candidates::candidate;

const ROOT: &str = concat!(env!("CARGO_MANIFEST_DIR"), "/../..");

const SAMPLES: [&str; 6] = [
    "booking_cut_off",
    "cell_that_points_to_itself",
    "queue_ends_and_loops",
    "queue_loops",
    "tail_hangs_loose",
    "two_queues_share_a_cell",
];

#[test]
fn text_and_book() {
    for name in SAMPLES {
        let read = |path: String| fs::read(path).expect("a sample");
        let book = Book::accept(&read(format!("{ROOT}/books/{name}.book"))).expect("a book");
        let Bounds { v, n, p } = book.bounds();
        let text = read(format!("{ROOT}/texts/{name}.smt2"));
        let (of_text, names) = Book::parse(&text, n.into(), p.into()).expect("a text");
        assert_eq!(names.len(), usize::from(v), "{name}");
        for number in 0..book.bounds().candidates() {
            let model = candidate(book.bounds(), number);
            let [one, other] = [&book, &of_text].map(|book| judge(book.bytes(), &model));
            assert_eq!(one, other, "{name} on {model:?}");
        }
    }
}

/// No sample is left out.
#[test]
fn all_samples() {
    for (folder, ending) in [("books", "book"), ("texts", "smt2")] {
        let files = fs::read_dir(format!("{ROOT}/{folder}")).expect("a folder");
        let paths = files.map(|file| file.expect("a file").path());
        let mut names: Vec<String> = paths
            .filter(|path| path.extension().is_some_and(|end| end == ending))
            .map(|path| path.file_stem().expect("a name").to_string_lossy().into())
            .collect();
        names.sort();
        assert_eq!(names, SAMPLES, "{folder}");
    }
}
