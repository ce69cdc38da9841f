own! { pub struct J(u8); }
all! { pub struct K(u8); }
macro_rules! own { ($($item:item)*) => { mod n { $( $item )* } } }
own! { pub struct L(u8); }
