// A second implementation of document 01 and of the requests that have landed, written from the papers alone and by the plainest means: trees, recursion, sets built pair by
// pair. The verified libraries are compared with it, so it shares no code and no layout with them.
pub mod analysis; // FIRST, FOLLOW, refusals 9 and 10
pub mod arithmetic; // calculations, sets, counts and conditions, with values
pub mod bench; // what the bench program prints
pub mod derivations; // derivations by their definition
pub mod grammar; // admission, refusals 2 to 13
pub mod header; // refusal 3
pub mod limits; // refusal 5
pub mod lookahead; // sets of lookahead strings
pub mod machine; // the run, step by step
pub mod matcher; // the run, by recursion
pub mod names; // refusal 6
pub mod no_value; // refusal 13
pub mod numbers; // refusal 8
pub mod parser; // refusal 4
mod parser_terms; // sets, calculations and conditions
pub mod random; // random numbers, damaged texts
pub mod random_frame; // frames for a grammar
pub mod random_grammar; // grammar texts
mod random_odd; // texts at the limits, and worse
mod random_terms; // their sets, counts and conditions
mod random_text; // their header and layout
pub mod recursion; // refusal 7
pub mod syntax; // the tree of a grammar
pub mod tokens; // what the parser reads
pub mod unreached; // refusal 12
pub mod weight; // refusal 11
