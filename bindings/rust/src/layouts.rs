//! Layouts, out of their numbers.

use crate::types::{Float, Integer, Primitive, Scalar, Type, WrappingRange};
use std::{error, fmt, slice};

/// A data layout string, as LLVM writes it; empty for the default.
#[derive(Clone, Debug, PartialEq, Eq)]
pub struct DataLayout(pub String);

impl DataLayout {
    pub fn new(string: &str) -> DataLayout {
        DataLayout(string.to_owned())
    }
}

/// Why a type has no layout, or a value no bytes.
#[derive(Clone, Copy, Debug, PartialEq, Eq)]
pub enum Error {
    /// It is refused, or the data layout string is, by the name that `refused NAME` has.
    Refused(&'static str),
    /// No type nested in at most 200 others has the numbers: it is nested too deep, or an alignment is no power of two up
    /// to 2^29; or a value is.
    Unreadable,
    /// The value is none of the type's.
    NotAValue,
}

impl fmt::Display for Error {
    fn fmt(&self, f: &mut fmt::Formatter<'_>) -> fmt::Result {
        match self {
            Error::Refused(name) => write!(f, "refused {name}"),
            Error::Unreadable => f.write_str("unreadable"),
            Error::NotAValue => f.write_str("not a value"),
        }
    }
}

impl error::Error for Error {}

/// The names of refusals, from number 0 and from number 32 on.
const REFUSED: [&str; 18] = [
    "OutOfMemory", "UnlawfulDataLayout", "BadIndex", "UnknownSpace", "BadRange", "BadAlign", "DuplicateDiscriminant", "DiscriminantTooWide",
    "NoState", "LocalTwice", "UnexpectedUnsized", "SizeOverflow", "EmptyUnion", "ReprConflict", "ZeroLengthSimdType", "OversizedSimdType",
    "NonPrimitiveSimdType", "BadOrder",
];
const FLAWED: [&str; 5] = ["InvalidAddressSpace", "InvalidBits", "MissingAlignment", "InvalidAlignment", "UnknownPointerSpecification"];

/// Where the fields of a type lie, in bytes.
#[derive(Clone, Debug, PartialEq, Eq)]
pub enum Fields {
    /// No fields.
    Primitive,
    /// So many, each at offset 0.
    Union(u64),
    /// Elements, each so far behind the one before.
    Array { stride: u64, count: u64 },
    /// Each field's offset in source order, and the fields as they lie in memory.
    Arbitrary { offsets: Vec<u64>, in_memory_order: Vec<u64> },
}

/// How a tag's number names a variant.
#[derive(Clone, Copy, Debug, PartialEq, Eq)]
pub enum TagEncoding {
    /// By the variant's discriminant.
    Direct,
    /// The variants of the span by the numbers from `niche_start` on, and the untagged one by every other.
    Niche { untagged_variant: u64, niche_variants: (u64, u64), niche_start: u128 },
}

/// What a variant has of its own.
#[derive(Clone, Debug, PartialEq, Eq)]
pub struct VariantLayout {
    pub size: u64,
    pub uninhabited: bool,
    pub offsets: Vec<u64>,
    pub in_memory_order: Vec<u64>,
}

/// The variants of a type.
#[derive(Clone, Debug, PartialEq, Eq)]
pub enum Variants {
    Empty,
    Single { index: u64 },
    Multiple { tag: Scalar, tag_encoding: TagEncoding, tag_field: u64, variants: Vec<VariantLayout> },
}

/// How a code generator sees the values.
#[derive(Clone, Copy, Debug, PartialEq, Eq)]
pub enum BackendRepr {
    Memory { sized: bool },
    Scalar(Scalar),
    ScalarPair { a: Scalar, b: Scalar, b_offset: u64 },
    SimdVector { element: Scalar, count: u64 },
    SimdScalableVector { element: Scalar, count: u64, number_of_vectors: u64 },
}

/// The place with the most free numbers, and those that it holds.
#[derive(Clone, Copy, Debug, PartialEq, Eq)]
pub struct Niche {
    pub offset: u64,
    pub value: Primitive,
    pub valid_range: WrappingRange,
}

/// The layout of a type.
#[derive(Clone, Debug, PartialEq, Eq)]
pub struct Layout {
    size: u64,
    align: u64,
    uninhabited: bool,
    fields: Fields,
    variants: Variants,
    backend_repr: BackendRepr,
    largest_niche: Option<Niche>,
    padding: Option<Vec<(u64, u64)>>,
}

impl Layout {
    /// In bytes.
    pub fn size(&self) -> u64 {
        self.size
    }

    /// In bytes.
    pub fn align(&self) -> u64 {
        self.align
    }

    /// Whether no value of the type can be.
    pub fn is_uninhabited(&self) -> bool {
        self.uninhabited
    }

    pub fn fields(&self) -> &Fields {
        &self.fields
    }

    pub fn variants(&self) -> &Variants {
        &self.variants
    }

    pub fn backend_repr(&self) -> BackendRepr {
        self.backend_repr
    }

    pub fn largest_niche(&self) -> Option<Niche> {
        self.largest_niche
    }

    /// Each run of padding, its first byte and how many it has; `None` of a type of more than 65,536 bytes.
    pub fn padding(&self) -> Option<&[(u64, u64)]> {
        self.padding.as_deref()
    }
}

/// Lays out a type under a data layout.
///
/// ```
/// use rustc_abi_text::{lay_out, DataLayout, Error, Integer, Scalar, Type};
///
/// let x86_64 = DataLayout::new("e-p:64:64-i64:64-i128:128");
/// let u8 = || Type::Scalar(Scalar::int(Integer::I8, false));
/// let u32 = || Type::Scalar(Scalar::int(Integer::I32, false));
/// let layout = lay_out(&x86_64, &Type::fields(vec![u8(), u32(), u8()]))?;
/// assert_eq!((layout.size(), layout.align()), (8, 4));
/// assert_eq!(layout.padding(), Some(&[(6, 2)][..]));
/// assert_eq!(lay_out(&x86_64, &Type::Array(1 << 61, Box::new(u8()))), Err(Error::Refused("SizeOverflow")));
/// # Ok::<(), Error>(())
/// ```
pub fn lay_out(data_layout: &DataLayout, ty: &Type) -> Result<Layout, Error> {
    let (status, numbers) = crate::call::lay_out(data_layout.0.as_bytes(), &ty.numbers());
    match status {
        0 => Ok(Numbers(numbers.iter()).layout()),
        _ => Err(failed(status, numbers[0])),
    }
}

/// What is told by the status of a type without a layout, and the number beside it.
pub(crate) fn failed(status: u8, number: u64) -> Error {
    match status {
        1 => Error::Refused(refusal(number)),
        _ => Error::Unreadable,
    }
}

fn refusal(number: u64) -> &'static str {
    let number = number as usize;
    REFUSED.get(number).or_else(|| FLAWED.get(number.wrapping_sub(32))).copied().unwrap_or("")
}

/// The numbers of a layout, or of a value, that are left.
pub(crate) struct Numbers<'a>(pub(crate) slice::Iter<'a, u64>);

impl Numbers<'_> {
    pub(crate) fn one(&mut self) -> u64 {
        *self.0.next().expect("an answer has all its numbers")
    }

    pub(crate) fn wide(&mut self) -> u128 {
        u128::from(self.one()) + (u128::from(self.one()) << 64)
    }

    fn many(&mut self, count: u64) -> Vec<u64> {
        (0..count).map(|_| self.one()).collect()
    }

    fn primitive(&mut self) -> Primitive {
        let (kind, which, signed) = (self.one(), self.one(), self.one() == 1);
        match kind {
            0 => Primitive::Int([Integer::I8, Integer::I16, Integer::I32, Integer::I64, Integer::I128][which as usize], signed),
            1 => Primitive::Float([Float::F16, Float::F32, Float::F64, Float::F128, Float::F16B, Float::PpcF128][which as usize]),
            _ => Primitive::Pointer(which as u32),
        }
    }

    fn scalar(&mut self) -> Option<Scalar> {
        let form = self.one();
        let value = self.primitive();
        let valid_range = WrappingRange { start: self.wide(), end: self.wide() };
        match form {
            0 => None,
            1 => Some(Scalar::Initialized { value, valid_range }),
            _ => Some(Scalar::Union { value }),
        }
    }

    fn view(&mut self) -> BackendRepr {
        let (kind, first, number_of_vectors) = (self.one(), self.one(), self.one());
        match (kind, self.scalar(), self.scalar()) {
            (1, Some(scalar), _) => BackendRepr::Scalar(scalar),
            (2, Some(a), Some(b)) => BackendRepr::ScalarPair { a, b, b_offset: first },
            (3, Some(element), _) => BackendRepr::SimdVector { element, count: first },
            (4, Some(element), _) => BackendRepr::SimdScalableVector { element, count: first, number_of_vectors },
            _ => BackendRepr::Memory { sized: first == 1 },
        }
    }

    fn layout(mut self) -> Layout {
        let (size, align, uninhabited) = (self.one(), self.one(), self.one() == 1);
        let (fields_kind, count, stride) = (self.one(), self.one(), self.one());
        let (variants_kind, variant, variant_count) = (self.one(), self.one(), self.one());
        let tag = self.scalar();
        let (is_niche, untagged_variant, first, last) = (self.one() == 1, self.one(), self.one(), self.one());
        let niche_start = self.wide();
        let backend_repr = self.view();
        let offset = self.one();
        let largest_niche = match self.scalar() {
            Some(Scalar::Initialized { value, valid_range }) => Some(Niche { offset, value, valid_range }),
            _ => None,
        };
        let (is_listed, run_count) = (self.one() == 1, self.one());
        let fields = match fields_kind {
            0 => Fields::Primitive,
            1 => Fields::Union(count),
            2 => Fields::Array { stride, count },
            _ => Fields::Arbitrary { offsets: self.many(count), in_memory_order: self.many(count) },
        };
        let variants: Vec<_> = (0..variant_count).map(|_| self.variant()).collect();
        let variants = match (variants_kind, tag) {
            (1, _) => Variants::Single { index: variant },
            (2, Some(tag)) => {
                let niche_variants = (first, last);
                let niche = TagEncoding::Niche { untagged_variant, niche_variants, niche_start };
                let tag_encoding = if is_niche { niche } else { TagEncoding::Direct };
                Variants::Multiple { tag, tag_encoding, tag_field: variant, variants }
            }
            _ => Variants::Empty,
        };
        let runs = (0..run_count).map(|_| (self.one(), self.one())).collect();
        let padding = if is_listed { Some(runs) } else { None };
        Layout { size, align, uninhabited, fields, variants, backend_repr, largest_niche, padding }
    }

    fn variant(&mut self) -> VariantLayout {
        let (size, uninhabited, count) = (self.one(), self.one() == 1, self.one());
        VariantLayout { size, uninhabited, offsets: self.many(count), in_memory_order: self.many(count) }
    }
}
