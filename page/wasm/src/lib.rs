//! The receiver bank as WebAssembly, for a page or for Node. It asks for the bytes of a recording
//! by one call out, and hands over the printed lines by another. Both calls are done when they
//! return, so the bank runs as it does over a pipe: from the first line to the `end` lines, in one
//! call of `run`. What isn't packed as the receiver reads it is packed on the way.
//!
//! `border` has all that is called from outside, and all that is called there. The numbers that
//! stand for kinds, formats, flags and endings are named in `numbers`.

mod border;
mod files;
mod measuring;
mod numbers;
mod packing;
mod running;
