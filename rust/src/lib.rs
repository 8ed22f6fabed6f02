//! The fitting ledger a second time, from its papers (documents 01 and 02) alone.
//!
//! From the bottom up: [`forms`] are the things that lines say, [`reader`] and [`writer`]
//! turn bytes into them and back, [`rules`] decides, [`flaws`] can break a decision on purpose,
//! [`site`], [`module`], [`keeper`] and [`records`] carry the state, [`removal`] says what falls with lost
//! lines, [`session`] turns a text of commands into a text of replies. [`program`] is the face that a test or a benchmark sees; the proved
//! library shows the same face in `library`.

pub mod card;
pub mod few;
pub mod flaws;
pub mod forms;
pub mod keeper;
#[cfg(feature = "library")]
pub mod library;
#[cfg(feature = "module")]
pub mod linked_module;
pub mod module;
pub mod program;
pub mod reader;
pub mod records;
pub mod refusal;
pub mod removal;
pub mod rules;
pub mod session;
pub mod site;
pub mod slots;
pub mod writer;
