// The generator of cases: the same for the same seed, each with a source of chance of its own.
pub mod breaking;
pub mod cases;
pub mod damage;
pub mod endings;
pub mod frames;
pub mod packages;
pub mod random;
pub mod special;
pub mod walks;
