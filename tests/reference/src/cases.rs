//! Making cases: random files, schedules made by hand, damaged texts and the limits of documents 01 and 02.

pub mod damage;
pub mod files;
pub mod hand;
mod headroom;
pub mod limits;
pub mod listings;
pub mod live;
mod prices;
