use inner::Header;

#[repr(C)]
pub struct Packet {
    pub kind: inner::Kind,
    pub header: Header,
    pub other: old::Word,
}

pub struct Named(pub made_up::Name);

pub struct Lost {
    pub at: gone::Place,
}

pub struct Hidden {
    pub at: inner::Secret,
}
