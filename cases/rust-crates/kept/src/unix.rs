#[cfg(target_os = "none")]
mod none;

pub struct Raw(pub i32);
