//! Stand-in for rust-analyzer's `syntax`: trees, texts and facts come from document 01's words.
//! Only what the crate's files use is here, under the crate's names.

pub mod ast;
pub mod hash;
mod kind;
mod node;
pub mod steps;
mod text;
pub mod tree;

pub use ast::AstNode;
pub use kind::SyntaxKind;
pub use node::{SyntaxElement, SyntaxElementChildren, SyntaxNode, SyntaxToken};
pub use text::{SmolStr, TextRange, TextSize};
