//! A second desk, written from the documents alone and by the plainest means, and a
//! second reader of messages as text, with a generator of files for both and a
//! comparison with other programs.

pub mod board;
pub mod check;
pub mod compare;
pub mod console;
pub mod desk;
pub mod generate;
pub mod limits;
pub mod message;
pub mod outcome;
pub mod refusal;
pub mod request;
pub mod rules;
pub mod run;
pub mod text;
