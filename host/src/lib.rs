//! The test host: what the specification says (`model`), what arrow-select's filter.rs does (`rust`) and what the port does (`port`),
//! on packs made for the purpose (`make`, `paper`), and the three held to each other (`compare`).
pub mod compare;
pub mod make;
pub mod model;
pub mod pack;
pub mod paper;
pub mod port;
pub mod replay;
pub mod rust;
