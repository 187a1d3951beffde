//! A model of documents 01 and 02, written from their words alone: plain and literal, not fast.

pub mod access;
pub mod line;
pub mod listing;
pub mod program;
pub mod repository;
pub mod run;
pub mod setup;
pub mod shell;
pub mod state;
pub mod working;
