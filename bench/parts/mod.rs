//! Parts that several of the plain programs share. None uses all of them.
#![allow(dead_code)]

pub mod frames;
pub mod hist;
pub mod history;
pub mod node;
pub mod pool;
pub mod rank;
pub mod sha256;
pub mod text;
pub mod world;
