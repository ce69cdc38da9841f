pub struct Word(pub u16, pub units::Unit);
