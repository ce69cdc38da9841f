pub struct File(i32);
cfg_client! { pub struct Dir(File, u8); }
