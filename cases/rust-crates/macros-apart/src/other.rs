#![macro_use]
macro_rules! all { ($($item:item)*) => { $( #[repr(C)] $item )* } }
own! { pub struct G(u8); }
