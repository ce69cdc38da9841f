//! Types, and what a type's numbers are; `docs/NUMBERS.md` has them.

/// What a scalar consists of.
#[derive(Clone, Copy, Debug, PartialEq, Eq, Hash)]
pub enum Primitive {
    /// An integer, signed where the flag is set.
    Int(Integer, bool),
    /// A float.
    Float(Float),
    /// A pointer into an address space.
    Pointer(u32),
}

/// An integer, by its bits.
#[derive(Clone, Copy, Debug, PartialEq, Eq, Hash)]
pub enum Integer {
    I8,
    I16,
    I32,
    I64,
    I128,
}

/// A float, by its format.
#[derive(Clone, Copy, Debug, PartialEq, Eq, Hash)]
pub enum Float {
    F16,
    F32,
    F64,
    F128,
    /// `bfloat16`.
    F16B,
    /// Two `f64` of a double double.
    PpcF128,
}

/// The numbers that are met counting from `start` to `end`, both of them in it.
#[derive(Clone, Copy, Debug, PartialEq, Eq, Hash)]
pub struct WrappingRange {
    pub start: u128,
    pub end: u128,
}

/// A primitive, and the numbers that it may hold.
#[derive(Clone, Copy, Debug, PartialEq, Eq, Hash)]
pub enum Scalar {
    /// It holds a number of the range.
    Initialized { value: Primitive, valid_range: WrappingRange },
    /// It holds any bytes, and may be uninitialised, as in a union.
    Union { value: Primitive },
}

impl Scalar {
    /// An integer with every number of its width.
    pub fn int(integer: Integer, signed: bool) -> Scalar {
        let end = u128::MAX >> (128 - (8u32 << integer as u32));
        Scalar::Initialized { value: Primitive::Int(integer, signed), valid_range: WrappingRange { start: 0, end } }
    }

    /// `bool`: 0 or 1.
    pub fn bool() -> Scalar {
        Scalar::Initialized { value: Primitive::Int(Integer::I8, false), valid_range: WrappingRange { start: 0, end: 1 } }
    }
}

/// The integer type of an enum's tag.
#[derive(Clone, Copy, Debug, PartialEq, Eq, Hash)]
pub enum IntegerType {
    /// `isize` or `usize`, signed where the flag is set.
    Pointer(bool),
    /// A type of fixed width.
    Fixed(Integer, bool),
}

/// What a scalable vector has in it.
#[derive(Clone, Copy, Debug, PartialEq, Eq, Hash)]
pub enum ScalableElt {
    /// So many elements of the one scalar field.
    ElementCount(u16),
    /// Scalable vectors.
    Container,
}

/// What a `repr` attribute asks for; by default nothing.
#[derive(Clone, Copy, Debug, Default, PartialEq, Eq, Hash)]
pub struct Repr {
    /// The integer of an enum's tag.
    pub int: Option<IntegerType>,
    /// The least alignment of the type, in bytes: a power of two up to 2^29.
    pub align: Option<u64>,
    /// The greatest alignment of each field, in bytes: a power of two up to 2^29.
    pub pack: Option<u64>,
    /// Bits: 1 `C`, 2 `simd`, 4 `transparent`, 8 `linear`.
    pub flags: u8,
    pub scalable: Option<ScalableElt>,
    /// A hash of the type's path.
    pub field_shuffle_seed: u64,
}

impl Repr {
    /// `repr(C)`.
    pub const C: Repr = Repr { int: None, align: None, pack: None, flags: 1, scalable: None, field_shuffle_seed: 0 };
}

/// A type, as far as its layout depends on it.
#[derive(Clone, Debug, PartialEq, Eq)]
pub enum Type {
    /// A number.
    Scalar(Scalar),
    /// Two numbers, as a wide pointer has them.
    Pair(Scalar, Scalar),
    /// A type with no value.
    Never,
    /// A type with one value, which takes no bytes.
    Unit,
    /// So many elements.
    Array(u64, Box<Type>),
    /// A vector of lanes; a packed one has no bytes behind them.
    Vector { lanes: u64, packed: bool, element: Box<Type> },
    /// Fields in source order. Where it isn't always sized, the last field may lose its size by coercion.
    Struct { repr: Repr, always_sized: bool, fields: Vec<Type> },
    /// Fields with the index of each as they are to lie in memory.
    Ordered { repr: Repr, always_sized: bool, order: Vec<u64>, fields: Vec<Type> },
    /// Fields that share their bytes.
    Union { repr: Repr, fields: Vec<Type> },
    /// Each variant's discriminant, a 128-bit two's complement number, and its fields.
    Enum { repr: Repr, variants: Vec<(u128, Vec<Type>)> },
    /// Prefix fields, locals, for each state the indices of its locals, and pairs of locals that may not share bytes.
    Coroutine { prefix: Vec<Type>, locals: Vec<Type>, states: Vec<Vec<u64>>, conflicts: Vec<(u64, u64)> },
}

impl Type {
    /// A struct of these fields, as Rust lays it out.
    pub fn fields(fields: Vec<Type>) -> Type {
        Type::Struct { repr: Repr::default(), always_sized: true, fields }
    }

    /// The type's numbers.
    pub fn numbers(&self) -> Vec<u64> {
        let mut numbers = Vec::new();
        add_type(&mut numbers, self);
        numbers
    }
}

pub(crate) fn add_wide(out: &mut Vec<u64>, number: u128) {
    out.extend([number as u64, (number >> 64) as u64]);
}

fn add_primitive(out: &mut Vec<u64>, value: Primitive) {
    out.extend(match value {
        Primitive::Int(integer, signed) => [0, integer as u64, u64::from(signed)],
        Primitive::Float(float) => [1, float as u64, 0],
        Primitive::Pointer(space) => [2, u64::from(space), 0],
    });
}

fn add_scalar(out: &mut Vec<u64>, scalar: &Scalar) {
    match *scalar {
        Scalar::Initialized { value, valid_range } => {
            out.push(0);
            add_primitive(out, value);
            add_wide(out, valid_range.start);
            add_wide(out, valid_range.end);
        }
        Scalar::Union { value } => {
            out.push(1);
            add_primitive(out, value);
        }
    }
}

fn add_repr(out: &mut Vec<u64>, repr: &Repr) {
    let int = match repr.int {
        None => 0,
        Some(IntegerType::Pointer(signed)) => 1 + u64::from(signed),
        Some(IntegerType::Fixed(integer, signed)) => 3 + 2 * integer as u64 + u64::from(signed),
    };
    let scalable = match repr.scalable {
        None => 0,
        Some(ScalableElt::Container) => 1,
        Some(ScalableElt::ElementCount(count)) => 2 + u64::from(count),
    };
    out.extend([int, repr.align.unwrap_or(0), repr.pack.unwrap_or(0), u64::from(repr.flags), scalable, repr.field_shuffle_seed]);
}

fn add_types(out: &mut Vec<u64>, types: &[Type]) {
    out.push(types.len() as u64);
    for it in types {
        add_type(out, it);
    }
}

fn add_words(out: &mut Vec<u64>, words: &[u64]) {
    out.push(words.len() as u64);
    out.extend(words);
}

fn add_type(out: &mut Vec<u64>, ty: &Type) {
    match ty {
        Type::Scalar(scalar) => {
            out.push(0);
            add_scalar(out, scalar);
        }
        Type::Pair(first, second) => {
            out.push(1);
            add_scalar(out, first);
            add_scalar(out, second);
        }
        Type::Never => out.push(2),
        Type::Unit => out.push(3),
        Type::Array(count, element) => {
            out.extend([4, *count]);
            add_type(out, element);
        }
        Type::Vector { lanes, packed, element } => {
            out.extend([5, *lanes, u64::from(*packed)]);
            add_type(out, element);
        }
        Type::Struct { repr, always_sized, fields } => {
            out.push(6);
            add_repr(out, repr);
            out.push(u64::from(*always_sized));
            add_types(out, fields);
        }
        Type::Ordered { repr, always_sized, order, fields } => {
            out.push(7);
            add_repr(out, repr);
            out.push(u64::from(*always_sized));
            add_words(out, order);
            add_types(out, fields);
        }
        Type::Union { repr, fields } => {
            out.push(8);
            add_repr(out, repr);
            add_types(out, fields);
        }
        Type::Enum { repr, variants } => {
            out.push(9);
            add_repr(out, repr);
            out.push(variants.len() as u64);
            for (discriminant, fields) in variants {
                add_wide(out, *discriminant);
                add_types(out, fields);
            }
        }
        Type::Coroutine { prefix, locals, states, conflicts } => {
            out.push(10);
            add_types(out, prefix);
            add_types(out, locals);
            out.push(states.len() as u64);
            for it in states {
                add_words(out, it);
            }
            out.push(conflicts.len() as u64);
            for (row, column) in conflicts {
                out.extend([*row, *column]);
            }
        }
    }
}
