mod wire;

pub struct Outer {
    pub inner: wire::Inner,
}
