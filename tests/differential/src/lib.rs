//! The library under test, an independent reference for it, a writer of
//! envelopes, and a generator of cases for both.

pub mod calls;
pub mod compare;
pub mod generate;
pub mod reference;
pub mod writer;
