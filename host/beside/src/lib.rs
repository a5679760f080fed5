//! The port and the published Rust side by side: the same scripts run on both ([`pair`]), made up by kind of case ([`cases`]), with every crash point between
//! stores ([`crash`]), and every answer's number foretold ([`foretell`]); what differs is made small ([`shrink`]).
pub mod cases;
pub mod crash;
pub mod dice;
pub mod folder;
pub mod foretell;
pub mod pair;
pub mod rust;
pub mod shrink;
pub mod tally;
pub mod watch;
pub mod wrong;
