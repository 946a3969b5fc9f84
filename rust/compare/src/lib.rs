//! The comparison at scale: random and damaged models, the calls on lent memory, and what is held against what.

pub mod case;
pub mod comparison;
pub mod damage;
pub mod engine;
pub mod entries;
pub mod frozen;
pub mod grids;
pub mod leaves;
pub mod lent;
pub mod likelihood;
pub mod likeness;
pub mod model_file;
pub mod random;
pub mod rival;
pub mod shrink;
pub mod sketch;
pub mod tally;
pub mod verdict;
