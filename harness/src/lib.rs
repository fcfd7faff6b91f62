//! What the programs that test the proved queue from outside share.

pub mod capi;
pub mod case;
pub mod cover;
pub mod dayfile;
pub mod days;
pub mod events;
pub mod fast;
pub mod player;
pub mod promises;
pub mod queue;
pub mod random;
pub mod raw;
