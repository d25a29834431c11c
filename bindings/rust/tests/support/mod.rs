//! What the tests that draw their cases are made of. Each uses its part.
#![allow(dead_code)]

pub mod calls;
pub mod cases;
pub mod collisions;
pub mod damage;
pub mod generator;
pub mod mapping;
pub mod reference;
pub mod roots;
pub mod tally;
