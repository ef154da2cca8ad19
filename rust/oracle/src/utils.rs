//! pliron's utils/, of which the tables are used.

pub mod table;
