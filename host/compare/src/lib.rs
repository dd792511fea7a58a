//! The proved calls, linked as an archive, compared with the second picker on the same texts and areas.
//!
//! * [`proved`] calls the archive; it is the only module with unsafe code;
//! * [`area`] lends areas with guard bytes around them;
//! * [`picks`] compares one pick: the answer and every byte of every area;
//! * [`checks`] compares one check of a sheet likewise;
//! * [`difference`] says where the two differ, as texts that show it;
//! * [`cases`] makes texts, areas and allowances from seeds;
//! * [`run`](mod@run) compares a range of seeds on all processors.

pub mod area;
pub mod cases;
pub mod checks;
pub mod difference;
pub mod picks;
pub mod proved;
pub mod run;

pub use checks::compare_check;
pub use difference::Difference;
pub use picks::{Lent, compare_pick};
pub use run::{Tally, run};
