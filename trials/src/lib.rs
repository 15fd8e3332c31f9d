//! Trials of the charging yard of document 01: a second implementation of its
//! rules, a generator of scripts, a comparison with any program that speaks the
//! line protocol, and a checker of demand 3 that sees calls and answers only.
//!
//! "further trials are executed against another implementation of these rules"

pub mod benchmark;
pub mod between;
pub mod bus;
pub mod compare;
pub mod coverage;
pub mod damage;
pub mod demand;
pub mod fast;
pub mod feed;
pub mod fill;
pub mod folder;
pub mod generate;
pub mod image;
pub mod interpret;
pub mod kills;
pub mod listen;
pub mod loops;
pub mod program;
pub mod protocol;
pub mod random;
pub mod reference;
pub mod role;
pub mod script;
pub mod show;
pub mod shrink;
pub mod told;
pub mod wall;
pub mod yard;
