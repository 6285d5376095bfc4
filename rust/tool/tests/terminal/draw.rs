//! Pictures of models.

use crate::run::{run, run_on, sample, P1};

#[test]
fn cells_variables_and_nil() {
    let drawn = run(&["draw", &sample("two_queues_share_a_cell")]);
    assert_eq!((drawn.status, &*drawn.err), (0, ""));
    assert_eq!(
        drawn.out,
        r#"digraph model {
  rankdir=LR;
  label="numbers are only names: with others, nil staying put, the model fits as well";
  0 [shape=box, label="nil"];
  1 [shape=ellipse, style=solid, label="1\nx2 x3"];
  2 [shape=ellipse, style=solid, label="2\nx1"];
  3 [shape=ellipse, style=dashed, label="3"];
  1 -> 0;
  2 -> 1;
}
"#
    );
}

#[test]
fn nothing_to_draw() {
    let none = run(&["draw", &sample("queue_ends_and_loops")]);
    assert_eq!((none.status, &*none.out), (1, ""));
    assert!(none.err.starts_with("hollyspool: none: "));
    let spent = run_on(&P1, &["draw", "-", "--budget", "5"]);
    assert_eq!((spent.status, &*spent.out), (2, ""));
    assert!(spent.err.starts_with("hollyspool: spent: "));
}
