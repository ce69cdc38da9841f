//! The types of this file lie as the compiler has them.

use rustc_abi_text::{assert_layouts, Source};

#[allow(dead_code)]
pub struct Header {
    kind: u8,
    len: u32,
    port: u16,
}

#[allow(dead_code)]
#[repr(C)]
pub struct Flat {
    a: u8,
    header: Header,
    rest: [u16; 3],
}

#[allow(dead_code)]
pub enum Message {
    Ping,
    Data { header: Header, more: Option<bool> },
    Text(Box<str>),
}

mod inner {
    #[allow(dead_code)]
    pub struct Wide(pub u128, pub bool);
}

#[test]
fn types_lie_as_the_compiler_has_them() {
    assert_layouts!(
        "tests/layouts.rs",
        "Header" => Header { kind, len, port },
        "Flat" => Flat { a, header, rest },
        "Message" => Message,
        "inner::Wide" => inner::Wide,
    );
}

#[test]
fn what_differs_is_told() {
    let module = Source::text("struct Header { kind: u8, len: u64, port: u16 } struct Bad(Nothing);").read().expect("types");
    assert_eq!(module.difference("Header", 16, 8, &[("len", 0)]), None);
    assert!(module.difference("Header", 8, 4, &[]).is_some_and(|it| it.contains("size 16")));
    assert!(module.difference("Header", 16, 8, &[("len", 4)]).is_some_and(|it| it.contains("offset 0")));
    assert!(module.difference("Bad", 0, 1, &[]).is_some_and(|it| it.contains("Nothing")));
    assert!(Source::text("struct (").read().is_err_and(|error| error.faults.len() == 1));
}

#[test]
fn modules_stand_in_the_files_that_are_handed_in() {
    let source = Source::text("").with_file("src/lib.rs", "").with_file("src/net.rs", "");
    assert!(source.read().is_ok());
    let folder = std::env::temp_dir().join(format!("layouts-{}", std::process::id()));
    std::fs::create_dir_all(&folder).expect("a folder");
    std::fs::write(folder.join("lib.rs"), "mod net; struct S(net::Header);").expect("a file");
    std::fs::write(folder.join("net.rs"), "pub struct Header(pub u16);").expect("a file");
    let module = Source::file(folder.join("lib.rs")).expect("files").target("thumbv7em-none-eabihf").read().expect("types");
    assert_eq!(module["S"].size, 2);
    std::fs::remove_dir_all(folder).expect("a folder");
}
