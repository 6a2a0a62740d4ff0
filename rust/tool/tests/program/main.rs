//! The program `velejume`, run: exit status, standard output, standard error.

mod all_het;
mod answers;
mod common;
mod convert;
mod draw;
mod example;
mod files;
mod folder;
mod judge;
mod margins;
mod matrix;
mod phase;
mod pipes;
mod report;
mod transcript;
mod tsv;
mod words;
