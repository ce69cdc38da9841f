pub struct Word(pub [u8; 3]);
