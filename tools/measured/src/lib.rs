//! What tools/figures measures, for both implementations alike.

#[path = "../../../tests/calls/src/areas.rs"]
pub mod areas;
pub mod boxes;
pub mod counted;
pub mod frame_kinds;
pub mod group;
pub mod kinds;
pub mod periods;
pub mod record_kinds;
pub mod records;
pub mod script;
