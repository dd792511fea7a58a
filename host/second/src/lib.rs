//! The second picker of Towerbasin: catalogues, selections, the plain walk and derivation sheets by the exact rules, kept as plain as can be so that a first picker may be compared with it.
//!
//! The parts, in the order in which a text passes through them:
//!
//! * [`frames`] turns lines of hexadecimal into frames and back;
//! * [`read`](mod@read) turns the frames of a catalogue text into a [`Catalogue`];
//! * [`selection`] says what a valid selection is, which one is wanted, and writes it;
//! * [`walk`](mod@walk) is the plain walk, which finds that selection and counts its trials;
//! * [`sheets`] reads, writes and judges derivation sheets;
//! * [`refute`](mod@refute) makes a sheet where no selection is valid;
//! * [`calls`] puts these together as the two calls, `pick` and `check`.

pub mod calls;
pub mod catalogue;
pub mod frames;
pub mod read;
pub mod refusal;
pub mod refute;
pub mod selection;
pub mod sheets;
pub mod walk;

pub use calls::{Answer, Areas, Fault, Verdict, answer_text, check, pick, pick_within};
pub use catalogue::{Catalogue, ModuleNo, Need, Place, Range, Version};
pub use read::read;
pub use refusal::Refusal;
pub use refute::refute;
pub use selection::{
    Choice, Selection, all_valid, best_by_force, choice_order, selection_text, valid,
};
pub use sheets::{Fact, SheetLine, States, judge_text, read_sheet, refutes, sheet_text};
pub use walk::{Outcome, Walk, walk};
