//! A second interpreter of the bench of document 01, written from the papers
//! alone: 01 (docs/01-scope.md, which decides), 000 (the manual of 1983), 02
//! (the customer's requests, as far as they are landed) and open-questions.md.
//! Quoted lines without a name are sentences of 01.
//! Places where the papers are silent are listed in READINGS.md.

#![forbid(unsafe_code)]

pub mod archive;
pub mod bench;
pub mod cases;
pub mod coverage;
pub mod cut;
pub mod damage;
pub mod depth;
pub mod explain;
pub mod fast;
pub mod generate;
pub mod hand;
pub mod machine;
pub mod pool;
pub mod products;
pub mod reader;
pub mod segment;
pub mod set;
pub mod steps;
pub mod unlinked;
pub mod window;
pub mod world;
