pub type Unit = u8;
