//! Two readings of document 01, with S-3 and S-5 of document 02, in one package:
//! `model` works everything out afresh from the history, `fast` keeps a running
//! record. They share no rule: `wire` only writes logs and `view` only holds
//! what the two are compared on.

pub mod fast;
pub mod generate;
pub mod model;
pub mod view;
pub mod wire;
