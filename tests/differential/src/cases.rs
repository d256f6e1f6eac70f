//! The cases that are compared, each made from its seed alone.

pub mod bands;
pub mod causes;
pub mod crowded;
pub mod notebook;
pub mod notices;
pub mod overall;
pub mod printed;
pub mod records;
pub mod reported;
pub mod reports;
pub mod running;
pub mod tally;
pub mod texts;
pub mod written;
