//! The proved library's archive, held against the model call by call over cases from a seeded generator.
//! Run with `cargo test --release --features library`; see README.md.

mod asks;
mod by_hand;
mod century;
mod columns;
mod crc;
mod damage;
mod dialogue;
mod frames;
mod layout;
mod library;
mod logs;
mod mercury;
mod random;
mod run;
mod seasons;
mod settings;
mod shown;
mod sweep;
mod ties;
mod times;
mod twin;
mod wire;
