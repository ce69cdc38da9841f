use second::Inner;

#[cfg(feature = "wide")]
type Number = u32;
#[cfg(not(feature = "wide"))]
type Number = u8;

pub struct Outer {
    inner: Inner,
    number: Number,
}
