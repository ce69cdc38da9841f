//! Type layouts: the calculator of `./layout` and `./map` over the archive `librustc_abi.a`, text in and text out, and
//! [`lay_out`], [`write_value`], [`read_value`], [`bytes_of`] and [`transmute`], by values of Rust; and [`Source`], the types of Rust
//! source by their names.
//!
//! ```
//! let answer = rustc_abi_text::layout("e-p:64:64-i64:64", "struct C ( u8 u32 )");
//! assert_eq!(answer.status, 0);
//! assert_eq!(answer.text, "size 8 align 4\nfield 0 offset 0\nfield 1 offset 4\nniche none\npadding 1..4\n");
//! ```
//!
//! `docs/FORMATS.md` has the format of types and of answers. Threads may call at once; a call wants stack, more for a deeper
//! type, and the 2 MB that Rust gives a thread were enough for types nested as deep as can be.
#![deny(unsafe_op_in_unsafe_fn)]

mod bytes;
mod call;
mod json;
mod layouts;
mod source;
mod types;
mod values;

pub use bytes::{bytes_of, transmute, ByteAnswer, ByteAnswers, Transmuted};
pub use layouts::{lay_out, BackendRepr, DataLayout, Error, Fields, Layout, Niche, TagEncoding, VariantLayout, Variants};
pub use source::{FieldLayout, Module, Source, SourceError, SourceFault, TypeLayout, HOST};
pub use types::{Float, Integer, IntegerType, Primitive, Repr, ScalableElt, Scalar, Type, WrappingRange};
pub use values::{read_value, write_value, Value};

use std::fmt;

/// What is told of a type.
#[derive(Clone, Debug, PartialEq, Eq)]
pub struct Answer {
    /// The lines of a layout or a map; `refused NAME`; or `unreadable word N`.
    pub text: String,
    /// 0 for a type with a layout, 1 for one that is refused, 2 for a text that can't be read.
    pub status: u8,
}

impl Answer {
    /// Whether the type has a layout, which the text tells.
    pub fn is_laid_out(&self) -> bool {
        self.status == 0
    }

    /// Whether the type is refused, by the name in the text; `refused OutOfMemory` where memory was wanting.
    pub fn is_refused(&self) -> bool {
        self.status == 1
    }

    /// Whether the type's line can't be read, from the word in the text on; from word 0 where a line isn't UTF-8.
    pub fn is_unreadable(&self) -> bool {
        self.status == 2
    }
}

impl fmt::Display for Answer {
    fn fmt(&self, f: &mut fmt::Formatter<'_>) -> fmt::Result {
        f.write_str(&self.text)
    }
}

/// The size, the alignment, the offsets, the variants, the niche and the padding of a type.
///
/// `data_layout` is a string as LLVM writes it, or empty for the default.
///
/// ```
/// use rustc_abi_text::layout;
///
/// assert!(layout("", "range u8 0 256").is_refused());
/// assert_eq!(layout("", "array u8").to_string(), "unreadable word 2\n");
/// ```
///
/// # Panics
///
/// Where one of them has a line feed: each is one line.
pub fn layout(data_layout: &str, ty: &str) -> Answer {
    layout_input(&input(data_layout, ty))
}

/// Which parts of a type have each of its bytes; else as [`layout`].
///
/// ```
/// let map = rustc_abi_text::map("", "pair u8 u16").text;
/// assert_eq!(map, "size 4 align 2\n0..1 field 0\n1..2 padding\n2..4 field 1\nniche none\n");
/// ```
///
/// # Panics
///
/// Where one of them has a line feed: each is one line.
pub fn map(data_layout: &str, ty: &str) -> Answer {
    map_input(&input(data_layout, ty))
}

/// The answer of [`layout`] to a whole input, of which the first two lines are read.
pub fn layout_input(input: &[u8]) -> Answer {
    call::asked(call::layout, input)
}

/// The answer of [`map`] to a whole input, of which the first two lines are read.
pub fn map_input(input: &[u8]) -> Answer {
    call::asked(call::map, input)
}

fn input(data_layout: &str, ty: &str) -> Vec<u8> {
    assert!(
        !data_layout.contains('\n') && !ty.contains('\n'),
        "a data layout and a type are one line each"
    );
    format!("{data_layout}\n{ty}\n").into_bytes()
}
