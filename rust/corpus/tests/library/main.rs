//! The parts of the library that the program's tests do not reach one by one.

mod bar;
mod dates;
mod names;
mod parts;
mod sha256;
