//! What `make` does for users: the library built, installed and removed, and what it says meanwhile.

#[path = "../commands/mod.rs"]
mod commands;

mod building;
mod install;
mod repository;
mod status;
