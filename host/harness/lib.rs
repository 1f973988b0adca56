//! What `compare`, `bench`, `vectors` and the fuzz target share.

pub mod answer;
pub mod areas;
pub mod comparison;
pub mod conversion;
pub mod corpus;
pub mod damage;
pub mod exhaustive;
pub mod expected;
pub mod forms;
pub mod input;
pub mod limits;
pub mod made;
pub mod random;
pub mod reader;
pub mod second;
pub mod shapes;
pub mod shrink;
pub mod slow;
pub mod tables;
pub mod tree;
