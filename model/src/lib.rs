//! An independent model of the tagged machine, written from its documentation alone.

pub mod case;
pub mod cell;
pub mod engines;
pub mod generate;
pub mod guarantee;
pub mod image;
pub mod instructions;
pub mod labels;
pub mod machine;
pub mod program;
pub mod refusal;
pub mod rules;
pub mod script;
pub mod sitting;
pub mod transcript;

pub use case::run_case;
pub use cell::{Cell, Tag, Word};
pub use guarantee::guarantee_holds;
pub use program::{open_many, page_many, run_image, show};
