//! Values, their bytes, and what a value's numbers are; `docs/NUMBERS.md` has them.

use crate::layouts::{failed, Numbers};
use crate::types::add_wide;
use crate::{DataLayout, Error, Type};

/// A value of a type.
#[derive(Clone, Debug, PartialEq, Eq)]
pub enum Value {
    /// A number of a scalar.
    Num(u128),
    /// The numbers of two scalars.
    Pair(u128, u128),
    /// Values of elements, lanes or fields.
    List(Vec<Value>),
    /// A variant of an enum, by its index, with the values of its fields.
    Variant(u64, Vec<Value>),
    /// A state of a coroutine, by its index, with the values of the prefix fields and of the state's locals.
    State { state: u64, prefix: Vec<Value>, locals: Vec<Value> },
    /// The data bytes of a union.
    Union(Vec<u8>),
}

impl Value {
    /// The value's numbers.
    pub fn numbers(&self) -> Vec<u64> {
        let mut numbers = Vec::new();
        add_value(&mut numbers, self);
        numbers
    }
}

/// The bytes that hold a value of a type, with 0 wherever no part of it covers one.
///
/// ```
/// use rustc_abi_text::{read_value, write_value, DataLayout, Error, Integer, Scalar, Type, Value};
///
/// let (little, big) = (DataLayout::new("e-p:64:64-i64:64"), DataLayout::new("E-p:64:64-i64:64"));
/// let number = |integer| Type::Scalar(Scalar::int(integer, false));
/// let ty = Type::fields(vec![number(Integer::I32), number(Integer::I8)]);
/// let value = Value::List(vec![Value::Num(0x01020304), Value::Num(7)]);
/// assert_eq!(write_value(&little, &ty, &value)?, [4, 3, 2, 1, 7, 0, 0, 0]);
/// assert_eq!(write_value(&big, &ty, &value)?, [1, 2, 3, 4, 7, 0, 0, 0]);
/// assert_eq!(read_value(&little, &ty, &[4, 3, 2, 1, 7, 9, 9, 9])?, Some(value));
/// assert_eq!(read_value(&little, &Type::Scalar(Scalar::bool()), &[2])?, None);
/// assert_eq!(write_value(&little, &ty, &Value::Num(1)), Err(Error::NotAValue));
/// # Ok::<(), Error>(())
/// ```
pub fn write_value(data_layout: &DataLayout, ty: &Type, value: &Value) -> Result<Vec<u8>, Error> {
    let (status, bytes) = crate::call::write_value(data_layout.0.as_bytes(), &ty.numbers(), &value.numbers());
    match status {
        0 => Ok(bytes),
        3 => Err(Error::NotAValue),
        _ => Err(failed(status, u64::from(bytes[0]))),
    }
}

/// The value of a type that the bytes hold; `None` where they hold none, as where they aren't as many as the type is large.
pub fn read_value(data_layout: &DataLayout, ty: &Type, bytes: &[u8]) -> Result<Option<Value>, Error> {
    let (status, numbers) = crate::call::read_value(data_layout.0.as_bytes(), &ty.numbers(), bytes);
    match status {
        0 => Ok(Some(Numbers(numbers.iter()).value())),
        3 => Ok(None),
        _ => Err(failed(status, numbers[0])),
    }
}

fn add_values(out: &mut Vec<u64>, values: &[Value]) {
    out.push(values.len() as u64);
    for it in values {
        add_value(out, it);
    }
}

fn add_value(out: &mut Vec<u64>, value: &Value) {
    match value {
        Value::Num(number) => {
            out.push(0);
            add_wide(out, *number);
        }
        Value::Pair(first, second) => {
            out.push(1);
            add_wide(out, *first);
            add_wide(out, *second);
        }
        Value::List(values) => {
            out.push(2);
            add_values(out, values);
        }
        Value::Variant(index, values) => {
            out.extend([3, *index]);
            add_values(out, values);
        }
        Value::State { state, prefix, locals } => {
            out.extend([4, *state]);
            add_values(out, prefix);
            add_values(out, locals);
        }
        Value::Union(bytes) => {
            out.extend([5, bytes.len() as u64]);
            out.extend(bytes.iter().map(|it| u64::from(*it)));
        }
    }
}

impl Numbers<'_> {
    fn values(&mut self) -> Vec<Value> {
        (0..self.one()).map(|_| self.value()).collect()
    }

    fn value(&mut self) -> Value {
        match self.one() {
            0 => Value::Num(self.wide()),
            1 => Value::Pair(self.wide(), self.wide()),
            2 => Value::List(self.values()),
            3 => Value::Variant(self.one(), self.values()),
            4 => Value::State { state: self.one(), prefix: self.values(), locals: self.values() },
            _ => Value::Union((0..self.one()).map(|_| self.one() as u8).collect()),
        }
    }
}
