//! `filter.rs` of arrow-select 60.1.0, byte for byte as published (the build script finds it), over the stand-ins.
#![allow(dead_code, rustdoc::broken_intra_doc_links)]
include!(concat!(env!("OUT_DIR"), "/module.rs"));
