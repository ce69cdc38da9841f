macro_rules! late { ($($item:item)*) => { $( #[cfg(target_pointer_width = "64")] $item )* } }
