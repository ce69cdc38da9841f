pub struct Word(pub [u8; 5]);
