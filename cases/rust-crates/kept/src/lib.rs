#[cfg(windows)]
mod windows;
#[cfg(unix)]
pub mod unix;
#[cfg(not(unix))]
use windows as system;
#[cfg(unix)]
use unix as system;

pub struct File {
    pub raw: system::Raw,
    pub is_open: bool,
}
