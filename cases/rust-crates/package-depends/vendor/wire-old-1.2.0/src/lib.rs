pub struct Word(pub u8);
