// What scripts/try_library looks at in gdb: values of types, and bytes that hold none.
pub struct Header {
    kind: bool,
    flag: u8,
    len: u16,
}

pub enum Message {
    Quit,
    Move { x: i32, y: i32 },
    Write(u16, Header),
}

#[inline(never)]
fn look(good: &Header, bad: &Header, write: &Message, wrong: &Message) {
    println!("{:p} {:p} {:p} {:p}", good, bad, write, wrong);
}

fn main() {
    let header = |len| Header { kind: true, flag: 3, len };
    let (good, mut bad) = (header(42), header(7));
    let (write, mut wrong) = (Message::Write(5, header(9)), Message::Write(6, header(8)));
    let _ = (Message::Quit, Message::Move { x: 1, y: 2 });
    // a `bool` of 2
    unsafe {
        *(&raw mut bad.kind).cast::<u8>() = 2;
        if let Message::Write(_, header) = &mut wrong {
            *(&raw mut header.kind).cast::<u8>() = 2;
        }
    }
    look(&good, &bad, &write, &wrong);
    println!("{} {}", good.len, bad.len);
}
