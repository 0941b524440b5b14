// The plain twin: the same algorithms as the proved crates, in ordinary Rust with bounds checks and no contracts.
mod items;
mod message;
mod prices;
mod reading;
pub mod scale;
mod seat;
mod sheet;
mod table;

pub use reading::Scratch;
pub use seat::HALL;
pub use sheet::{Rule, Sheet, Symbol};
