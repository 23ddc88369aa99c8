//! 4,800 bit/s voice frames and recordings: Federal Standard 1016 with the house rules.
//! It follows the documents alone and shares no code with the program whose answers are
//! compared with its own.

pub mod cases;
pub mod codes;
pub mod delays;
pub mod draws;
pub mod exchange;
pub mod excitation;
pub mod excite;
pub mod frame;
pub mod gains;
pub mod hear;
pub mod histories;
pub mod leaves;
pub mod lent;
pub mod listing;
pub mod lsp;
pub mod many;
pub mod recording;
pub mod refusal;
pub mod salvage;
pub mod sheet;
pub mod subframes;
pub mod tables;
pub mod tally;
pub mod text;
pub mod uploads;
pub mod values;
