//! A second judge of dossiers, written from the requirements alone, and a generator of dossiers to compare it with the proved one on.

pub mod damage;
pub mod judge;
pub mod limits;
pub mod make;
pub mod pairs;
pub mod random;
pub mod rows;
pub mod rules;
