//! The proved calls, beside the case files and the second bench.

mod assign;
mod both_ways;
mod compare;
mod damaged;
mod encode;
mod export;
mod import;
mod judge;
mod lines;
mod lowest;
mod made;
mod program;
mod renumbered;
mod search;
mod witness;
