//! Document 02, L4, "Coming back after a power cycle": "A box's replica is
//! written as a record of fixed layout".
//!
//! Recording a replica of any history and returning it by 0 gives that very
//! replica; returning a record by 0 periods and recording gives the very
//! bytes.

mod layout;
mod read;
mod returning;
mod write;

pub use layout::LENGTH;
pub use read::read;
pub use returning::return_from;
pub use write::write;

pub(crate) use layout::PERIOD_AT as HELD_AT;
pub(crate) use returning::come_back;
pub(crate) use write::check_area;
