//! The oracle: the text, compiled unchanged (build.rs says how), and one plain function a step over it. The package
//! `uncached` is made of the same files, without the text's cache.

include!(concat!(env!("OUT_DIR"), "/text.rs"));

pub mod steps;

/// FNV-1a over the text's files, to name the text that a run was made with.
pub const TEXT_SUM: &str = env!("TEXT_SUM");
