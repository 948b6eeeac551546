//! A second model of the session store machine of document 01, with Req 01, Req
//! 02, Req 04 and Req 07 to Req 10 of document 02: one switch, one chain of
//! replicas, packets in every order.

pub mod command;
pub mod compare;
pub mod draw;
pub mod examples;
pub mod generate;
pub mod model;
pub mod order;
pub mod records;
pub mod run;
pub mod shorten;
pub mod words;
