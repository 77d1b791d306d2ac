//! The command `dci`: what its commands do, and how they show bits.

pub mod answers;
pub mod candidates;
pub mod commands;
pub mod failure;
pub mod inputs;
pub mod options;
pub mod picture;
pub mod searching;
pub mod soft;
pub mod streams;
pub mod text;
