//! bench/run puts the crate's four files, unchanged, into the folder av1 beside this file.
#[allow(dead_code)]
pub mod av1;
