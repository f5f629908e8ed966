//! isdb-rs's own lib.rs, as one module: the crate's root is this file, so that the build script can lay the files
//! out where cargo keeps what it makes.

#![allow(dead_code, clippy::all, rustdoc::all)]

include!(concat!(env!("OUT_DIR"), "/root.rs"));
