//! What may be done with the bytes of types.

use crate::layouts::{failed, Numbers};
use crate::{DataLayout, Error, Type};

/// Whether something is so of the bytes of types.
#[derive(Clone, Debug, PartialEq, Eq)]
pub enum ByteAnswer {
    /// It is.
    Yes,
    /// It isn't, and these cells show it: bytes, and nothing where none is initialised.
    No(Vec<Option<u8>>),
    /// The types aren't as large.
    OtherSize,
    /// It would take more than 2^22 steps.
    TooLarge,
}

/// What may be done with the bytes of a type.
#[derive(Clone, Debug, PartialEq, Eq)]
pub struct ByteAnswers {
    /// Whether zero bytes hold a value; no cells show that they don't.
    pub is_from_zeros: ByteAnswer,
    /// Whether all bytes, as many as it is large, hold a value.
    pub is_from_bytes: ByteAnswer,
    /// Whether all that hold a value are initialised.
    pub is_into_bytes: ByteAnswer,
}

/// Whether each value of one type is one of another.
#[derive(Clone, Debug, PartialEq, Eq)]
pub struct Transmuted {
    /// The answer.
    pub goes: ByteAnswer,
    /// Whether some number of the two types is a pointer, which is more than its bytes.
    pub has_pointer: bool,
}

/// What may be done with the bytes of a type.
///
/// ```
/// use rustc_abi_text::{bytes_of, ByteAnswer, DataLayout, Error, Scalar, Type};
///
/// let answers = bytes_of(&DataLayout::new(""), &Type::Scalar(Scalar::bool()))?;
/// assert_eq!(answers.is_from_zeros, ByteAnswer::Yes);
/// assert_eq!(answers.is_from_bytes, ByteAnswer::No(vec![Some(2)]));
/// assert_eq!(answers.is_into_bytes, ByteAnswer::Yes);
/// # Ok::<(), Error>(())
/// ```
pub fn bytes_of(data_layout: &DataLayout, ty: &Type) -> Result<ByteAnswers, Error> {
    let (status, numbers) = crate::call::bytes_of(data_layout.0.as_bytes(), &ty.numbers());
    if status != 0 {
        return Err(failed(status, numbers[0]));
    }
    let mut rest = Numbers(numbers.iter());
    Ok(ByteAnswers { is_from_zeros: rest.byte_answer(), is_from_bytes: rest.byte_answer(), is_into_bytes: rest.byte_answer() })
}

/// Whether each value of the first type is one of the second.
///
/// ```
/// use rustc_abi_text::{transmute, ByteAnswer, DataLayout, Error, Integer, Scalar, Type};
///
/// let (target, bool) = (DataLayout::new(""), Type::Scalar(Scalar::bool()));
/// let number = Type::Scalar(Scalar::int(Integer::I8, false));
/// assert_eq!(transmute(&target, &bool, &number)?.goes, ByteAnswer::Yes);
/// assert_eq!(transmute(&target, &number, &bool)?.goes, ByteAnswer::No(vec![Some(2)]));
/// # Ok::<(), Error>(())
/// ```
pub fn transmute(data_layout: &DataLayout, first: &Type, second: &Type) -> Result<Transmuted, Error> {
    let (status, numbers) = crate::call::transmute(data_layout.0.as_bytes(), &first.numbers(), &second.numbers());
    if status != 0 {
        return Err(failed(status, numbers[0]));
    }
    let mut rest = Numbers(numbers.iter());
    let has_pointer = rest.one() == 1;
    Ok(Transmuted { goes: rest.byte_answer(), has_pointer })
}

impl Numbers<'_> {
    fn byte_answer(&mut self) -> ByteAnswer {
        let (answer, count) = (self.one(), self.one());
        let cells = (0..count).map(|_| u8::try_from(self.one()).ok()).collect();
        match answer {
            0 => ByteAnswer::Yes,
            1 => ByteAnswer::No(cells),
            2 => ByteAnswer::OtherSize,
            _ => ByteAnswer::TooLarge,
        }
    }
}
