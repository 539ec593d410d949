//! Tests of the library terravisco against the outside world: an independent matcher, Perl, PCRE2 and the examples of the documents.

pub mod arguments;
pub mod bench;
pub mod card_examples;
pub mod cards;
pub mod case;
pub mod contender;
pub mod differences;
pub mod examples;
pub mod fence;
pub mod independent;
pub mod lender;
pub mod looker;
pub mod lookup_examples;
pub mod pcre2;
pub mod perl;
pub mod random;
pub mod report;
pub mod shapes;
pub mod shrink;
pub mod text;
pub mod trial;

// The library's own calls, on areas that the tests lend.
pub use terravisco::raw;
