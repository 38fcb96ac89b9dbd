//! A second version of the scale planner for RNS-CKKS circuits, written from documents 01 and 02 alone, with Jobs 1 to 7 of the latter.
//!
//! The services stand in `services`; `text`, `plan`, `price`, `check`, `erase`, `rising` and `live` are their parts. `machines` and `search` test what
//! document 01 says of every schedule. The other modules make cases and compare the archive and the yardstick with this version;
//! `coverage` counts what was tried.

pub mod big;
pub mod both;
pub mod cases;
pub mod check;
pub mod coverage;
pub mod erase;
pub mod kinds;
pub mod library;
pub mod live;
pub mod machines;
pub mod plan;
pub mod price;
pub mod random;
pub mod rising;
pub mod search;
pub mod services;
pub mod text;
