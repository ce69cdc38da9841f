#[macro_use]
mod cfg;

#[cfg_attr(unix, macro_use)]
mod given;
