//! A judge of states written apart from the referee's own, states damaged in many ways, and the two held against each other.

pub mod calls;
pub mod check;
pub mod damage;
pub mod judge;
pub mod made;
pub mod play;
pub mod run;
pub mod text;
