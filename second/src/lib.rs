//! The second program: an independent implementation of document 01 (rules and
//! scope of the build), of wishes 1 and 3 of document 02 and of FRF.11, used as
//! evidence against the proved one.
//!
//! One module a heading of document 01:
//!
//! - `frame`, `voice_card`: "Frame and sub-frame"
//! - `refusal`, `writer`: "Refusal numbers" (the writer's rules stand there)
//! - `provisioning`: "Provisioning text"
//! - `payload`: "Payload types", a module for each layout
//! - `senders`: "Senders, per 20 ms"
//! - `receivers`: "Receivers"
//! - `listing`: "Listing program"
//! - `bench`: "Bench examples"
//!
//! Of document 02 (changes requested after the base):
//!
//! - `fax_replay`: wish 1, "Fax at the far end"
//! - `receivers`: wish 3, "Late payloads through a tunnel"
//!
//! Wish 2 (enhancement tables in less read-only memory) changes no answer, so it
//! has no module; `generate::codings` makes the recording that shows it.
//!
//! And what belongs to no heading: `trial` (docs/TRIAL.md), `unit`
//! (docs/UNIT.md), `follow` (docs/FOLLOW.md), `generate` (inputs made from a
//! seed), `histogram`, and the small helpers `answers`, `hex` and `lines`.

#![forbid(unsafe_code)]

pub mod answers;
pub mod bench;
pub mod fax_replay;
pub mod follow;
pub mod frame;
pub mod generate;
pub mod hex;
pub mod histogram;
pub mod lines;
pub mod listing;
pub mod payload;
pub mod provisioning;
pub mod receivers;
pub mod refusal;
pub mod senders;
pub mod trial;
pub mod unit;
pub mod voice_card;
pub mod writer;
