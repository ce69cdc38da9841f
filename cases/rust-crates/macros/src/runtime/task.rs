feature! { #![any(unix, windows)] pub struct Task(u16, u32); }
