//! The command `rbu` (docs/RBU.md): areas as text, faults in words, and runs, over the proved core. What an area or a call is answered is
//! the core's to say, and comes from the wrapper `rbu`; what stands here reads, explains and prints.

pub mod area_file;
pub mod arguments;
pub mod check;
pub mod explain;
pub mod faults;
pub mod layout;
pub mod lines;
pub mod make;
pub mod run;
pub mod scenario;
pub mod script;
#[cfg(test)]
mod sha256; // the build script's
pub mod show;
pub mod streams;
pub mod subcommands;
pub mod tables;
pub mod text;
