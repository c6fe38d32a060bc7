//! A second implementation of the standards, document 01 and document 02's items 1 to 3, 5 and 6 in the plainest style: slow, and short
//! enough to read. It is no independent reading of them: README.md says what it shows, and what the outside vectors show.

pub mod calls;
pub mod dispatcher;
pub mod engine;
pub mod evidence;
pub mod impossible;
pub mod layout;
pub mod lmots;
pub mod lms;
pub mod messages;
pub mod note;
pub mod quorum;
pub mod record;
pub mod refusals;
pub mod seats;
pub mod sha256;
pub mod verdicts;
pub mod yard;
