macro_rules! given { ($($item:item)*) => { $( $item )* } }
