//! The sizes, codes and kinds of include/mundzavch.h, as build.rs finds them there: `ACTIONS` is MUNDZAVCH_ACTIONS.

#![allow(dead_code)] // the header may have more than is used here

include!(concat!(env!("OUT_DIR"), "/sizes.rs"));
