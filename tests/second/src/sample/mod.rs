//! Seeded floors and messages that are right, for tests and measurements. Both programs get them
//! ready made: neither makes them.

mod floors;
mod requests;
mod rng;

pub use floors::{depth_of, floor, route, service, tree_of, OwnedTables, NAMES};
pub use requests::{request, response, topic, OwnedMessage, Request};
pub use rng::Rng;
