#[path = "elsewhere.rs"]
pub mod named;

pub mod plain;

pub mod inline {
    #[path = "other.rs"]
    pub mod renamed;
}

#[path = "folder"]
pub mod moved {
    pub mod here;
    #[path = "../elsewhere.rs"]
    pub mod again;
}

#[cfg_attr(unix, path = "system/unix.rs")]
#[cfg_attr(windows, path = "system/windows.rs")]
pub mod system;

pub struct All {
    pub named: named::Elsewhere,
    pub again: moved::again::Elsewhere,
    pub beside: plain::beside::Beside,
    pub deep: plain::inline::other::Deep,
    pub renamed: inline::renamed::Other,
    pub here: moved::here::Here,
    pub handle: system::Handle,
}
