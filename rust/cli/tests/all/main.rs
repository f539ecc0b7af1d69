//! The command as people use it: every test starts the program itself.

mod command;
mod common;
mod files;
mod page;
mod random;
