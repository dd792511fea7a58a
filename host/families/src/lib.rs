//! Families of catalogue texts and of damaged texts, each made from a seed, to try pickers and checkers on.
//!
//! The same seed always gives the same text.

pub mod catalogues;
pub mod damage;
pub mod draft;
mod page;
pub mod rng;

pub use catalogues::{Family, circles, easy, knotted, largest, overfull_root, tight, tiny};
pub use damage::{Damage, damaged_catalogue, damaged_sheet};
pub use draft::{Draft, DraftNeed, DraftVersion};
pub use rng::Rng;
