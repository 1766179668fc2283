//! A second program for the page, the line and the negotiation, written from document 01
//! and its amendments alone; the message runs are written from wish 8 of document 02, the
//! parity of a frame from its wish 10 and from 97.3.2.2 of document 004.
//!
//! It is made to be read and believed, not to be fast: every rule of 01 stands here
//! once, in the shape in which 01 says it.

pub mod answer;
pub mod calls;
pub mod check;
pub mod device;
pub mod event;
pub mod field;
pub mod gap;
pub mod line_mode;
pub mod listing;
pub mod messages;
pub mod page;
pub mod parity;
pub mod reader;
pub mod resolve;
pub mod word;

#[cfg(test)]
mod table_of_01;
