struct Config(u8, u32);

fn main() {}
