macro_rules! all { ($($item:item)*) => { $( $item )* } }
macro_rules! own { ($($item:item)*) => { $( $item )* } }
mod other;
mod given;
use given::given;
all! { pub struct A(u8); }
own! { pub struct B(u8); }
given! { pub struct C(u8); }
hidden::inside! { pub struct D(u8); }
mod hidden {
    macro_rules! inside { ($($item:item)*) => { $( $item )* } }
    pub(crate) use inside;
    inside! { pub struct E(u8); }
    mod within { inside! { pub struct F(u8); } }
}
mod below;
