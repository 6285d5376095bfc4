//! Models there and back, refused where the judge refuses them.

use hollyspool::{judge, Book, Bounds, Formula, Model, Refusal, NIL};

/// Every model of up to one byte too many, beside the judge.
#[test]
fn refused_as_the_judge_refuses() {
    let book = Book::new(1, 2, 2, &Formula::Equal(NIL, NIL)).expect("it can be written");
    let values = [0, 1, 2, 3, 254, 255];
    for length in 0..=4 {
        for choice in 0..values.len().pow(length) {
            let digit = |place| values[choice / values.len().pow(place) % values.len()];
            let bytes: Vec<u8> = (0..length).map(digit).collect();
            let judged: Option<Refusal> = judge(book.bytes(), &bytes).settled().err();
            let read = Model::read(book.bounds(), &bytes);
            assert_eq!(read.as_ref().err(), judged.as_ref(), "{bytes:?}");
            if let Ok(model) = read {
                assert_eq!(model.bytes(), bytes);
            }
        }
    }
}

#[test]
fn shown() {
    let shown = |v, n, bytes: &[u8]| {
        let model = Model::read(Bounds { v, n, p: 0 }, bytes).expect("it is in range");
        model.to_string()
    };
    assert_eq!(shown(2, 3, &[1, 0, 3, 255, 0]), "x1=1 x2=0 ; 1→3, 3→0");
    assert_eq!(shown(1, 1, &[0, 255]), "x1=0 ;");
    assert_eq!(shown(0, 1, &[1]), "; 1→1");
    assert_eq!(shown(0, 0, &[]), ";");
}
