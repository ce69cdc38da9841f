#[macro_use]
mod macros;
mod plain;

cfg_rt! {
    pub mod runtime;
    #[macro_use]
    mod late;
}

feature! {
    #![all(feature = "fs", not(windows))]
    pub mod fs;
    mod inline {
        feature! { #![windows] pub struct Inside(u64); }
        feature! { #![unix] pub struct Inside(u8, super::fs::File); }
    }
}

feature! { #![unix] pub struct Root(runtime::Handle, u8); }
cfg_not_rt! { pub struct Handle(u8); }
late! { pub struct Late(u8, plain::Plain); }
