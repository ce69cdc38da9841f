//! Lays out one type, and prints the answer.

use rustc_abi_text::layout;
use std::process::ExitCode;

fn main() -> ExitCode {
    let answer = layout("e-p:64:64-i64:64-i128:128", "struct - ( u8 u32 u16 )");
    print!("{answer}");
    ExitCode::from(answer.status)
}
