//! What the bench program reads and prints: descriptions and stored slots as text, the layouts as
//! tables, the socket as a drawing, and the lines of Intel HEX. The calls themselves are the wrapper's, package `onerom`.

#![warn(missing_docs)]

pub mod hex_lines;
pub mod show;
pub mod socket;
pub mod text;
