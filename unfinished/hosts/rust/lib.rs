//! The second machine and what tries the proved library against it.
#![deny(warnings)]

pub mod coverage;
pub mod damage;
pub mod generate;
pub mod layout;
pub mod machine;
pub mod memory;
pub mod object;
pub mod observe;
pub mod order;
pub mod planted;
pub mod proved;
pub mod random;
pub mod refusal;
pub mod script;
pub mod shrink;
pub mod store;
pub mod table;
pub mod writer;
