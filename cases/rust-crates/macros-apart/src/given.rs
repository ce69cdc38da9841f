macro_rules! given { ($($item:item)*) => { $( $item )* } }
pub(crate) use given;
mod first { given! { pub struct H(u8); } }
mod inner;
