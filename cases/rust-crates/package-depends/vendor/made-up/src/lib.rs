pub struct Name(pub wire_old::Word, pub u16);
