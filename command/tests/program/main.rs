//! Runs the program as its users do, on files that are put together here and on the samples.
//!
//! What is expected comes from document 01: files are put together by `format`, and read by `model`
//! or by a script, which share nothing with the library.

mod control;
mod convert;
mod dump;
mod format;
mod list;
mod manners;
mod model;
mod run;
mod streams;
mod verify;
mod with_python;
