//! Safe calls of the Rattle library (include/ssr.h says what each operation does): one module for a
//! group of operations. What is handed in may be damaged in any way. An answer has the fields of the C
//! struct; a refusal is its number, and 0 where nothing refuses.

pub mod job;
pub mod lists;
pub mod matching;
pub mod rules;
pub mod trees;
pub mod walk;
