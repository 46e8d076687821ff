//! The checks that need the original.

pub mod class;
pub mod classify;
pub mod coverage;
pub mod decode;
pub mod encode;
pub mod examples;
pub mod lookup;
pub mod pools;
pub mod read_run;
pub mod rows;
pub mod sample;
pub mod scan;
pub mod segments;
