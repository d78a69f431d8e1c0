//! A second, independent implementation of document 01, "A SCRaM replica
//! group for a winder's tension controller", with change requests L1,
//! "Readings as the transmitters send them", L2, "Rounding that creeps", L3,
//! "The shift page", L4, "Coming back after a power cycle", L6, "Ask first,
//! store, then commit", L7, "Commands that hit the stop", and L8, "Two quorum
//! numbers", of document 02.
//!
//! Comments in quotation marks are document 01's own words, or document 02's
//! where they name it; "readings" and "changes" name the papers that settle
//! where document 01 and document 02 allow two readings, and "layout" the one
//! that lays down the record byte by byte.

#![forbid(unsafe_code)]

pub mod calls;
pub mod fault;
pub mod frame;
pub mod law;
pub mod page;
pub mod printed;
pub mod reading;
pub mod record;
pub mod refusal;
pub mod replica;
pub mod script;
pub mod ticket_calls;
pub mod tickets;
