pub mod wire;
pub mod inline {
    pub mod deep;
    pub struct Inside {
        pub at: self::deep::Deep,
        pub above: super::Root,
    }
}
mod shapes;
pub mod r#async;

pub use shapes::*;
use wire::{frame::Frame, Kind as WireKind};

pub struct Root {
    pub first: u8,
    pub kind: WireKind,
    pub frame: Frame,
}

pub struct Whole {
    pub inside: inline::Inside,
    pub under: inline::deep::under::Under,
    pub square: Square,
    pub task: r#async::Task,
    pub length: [u16; wire::LENGTH],
}
