//! Tests of the console: a second one, scripts to run, and what they reach.

pub mod exact;
pub mod groups;
pub mod program;
pub mod reached;
pub mod report;
pub mod scripts;
pub mod second;
pub mod small;
pub mod stored;
