//! The calls of the archive: all that is `unsafe`.

use crate::Answer;

/// A room that is enough for most answers, in bytes.
const ROOM: usize = 4096;

/// A room that is enough for most layouts and values, in numbers, or bytes of a value.
const NUMBERS: usize = 256;

/// `struct rustc_abi_file`.
#[repr(C)]
struct File {
    path: *const u8,
    path_len: usize,
    text: *const u8,
    text_len: usize,
}

// As `rustc_abi.h` declares them, which nothing checks.
extern "C" {
    fn abi_c_types(
        files: *const File,
        files_len: usize,
        asked: *const u8,
        asked_len: usize,
        output: *mut u8,
        output_len: usize,
        needed: *mut usize,
    ) -> u8;
    fn abi_c_layout(input: *const u8, input_len: usize, output: *mut u8, output_len: usize, needed: *mut usize) -> u8;
    fn abi_c_map(input: *const u8, input_len: usize, output: *mut u8, output_len: usize, needed: *mut usize) -> u8;
    fn abi_c_lay_out(
        data_layout: *const u8,
        data_layout_len: usize,
        ty: *const u64,
        ty_len: usize,
        layout: *mut u64,
        layout_len: usize,
        needed: *mut usize,
    ) -> u8;
    fn abi_c_write_value(
        data_layout: *const u8,
        data_layout_len: usize,
        ty: *const u64,
        ty_len: usize,
        value: *const u64,
        value_len: usize,
        bytes: *mut u8,
        bytes_len: usize,
        needed: *mut usize,
    ) -> u8;
    fn abi_c_read_value(
        data_layout: *const u8,
        data_layout_len: usize,
        ty: *const u64,
        ty_len: usize,
        bytes: *const u8,
        bytes_len: usize,
        value: *mut u64,
        value_len: usize,
        needed: *mut usize,
    ) -> u8;
    fn abi_c_bytes(
        data_layout: *const u8,
        data_layout_len: usize,
        ty: *const u64,
        ty_len: usize,
        answer: *mut u64,
        answer_len: usize,
        needed: *mut usize,
    ) -> u8;
    fn abi_c_transmute(
        data_layout: *const u8,
        data_layout_len: usize,
        first: *const u64,
        first_len: usize,
        second: *const u64,
        second_len: usize,
        answer: *mut u64,
        answer_len: usize,
        needed: *mut usize,
    ) -> u8;
}

/// A call: what is asked, where the answer goes if it fits, and its status with its length.
pub(crate) type Call = fn(&[u8], &mut [u8]) -> (u8, usize);

/// Asks for a layout.
pub(crate) fn layout(input: &[u8], output: &mut [u8]) -> (u8, usize) {
    let mut needed = 0;
    // SAFETY: the slices are borrowed for the call, so that they are there and don't overlap, `needed` is a local, and none of
    // their pointers is null, not of an empty slice either. The call keeps none of them, and writes inside `output` alone.
    let status = unsafe { abi_c_layout(input.as_ptr(), input.len(), output.as_mut_ptr(), output.len(), &mut needed) };
    (status, needed)
}

/// Asks for a map.
pub(crate) fn map(input: &[u8], output: &mut [u8]) -> (u8, usize) {
    let mut needed = 0;
    // SAFETY: as in `layout`, whose declaration this call shares.
    let status = unsafe { abi_c_map(input.as_ptr(), input.len(), output.as_mut_ptr(), output.len(), &mut needed) };
    (status, needed)
}

/// The whole answer of a call.
pub(crate) fn asked(call: Call, input: &[u8]) -> Answer {
    let mut output = vec![0; ROOM];
    loop {
        let (status, needed) = call(input, &mut output);
        if needed <= output.len() {
            output.truncate(needed);
            let text = String::from_utf8(output).expect("an answer is UTF-8");
            return Answer { text, status };
        }
        // (nothing was written: once more, with room for all)
        output.resize(needed, 0);
    }
}

/// The status and what a call lends: the call is handed the room, and where it tells how much there is.
fn lent<T: Copy + Default>(call: impl Fn(&mut [T], &mut usize) -> u8) -> (u8, Vec<T>) {
    let (mut room, mut needed) = (vec![T::default(); NUMBERS], 0);
    loop {
        let status = call(&mut room, &mut needed);
        if needed <= room.len() {
            room.truncate(needed);
            return (status, room);
        }
        // (nothing was written: once more, with room for all)
        room.resize(needed, T::default());
    }
}

/// The status and the numbers that are answered to the numbers of a type.
pub(crate) fn lay_out(data_layout: &[u8], ty: &[u64]) -> (u8, Vec<u64>) {
    lent(|room: &mut [u64], needed| {
        let string = data_layout;
        // SAFETY: as in `layout`; no slice overlaps another, and `room` alone is written, inside it.
        unsafe { abi_c_lay_out(string.as_ptr(), string.len(), ty.as_ptr(), ty.len(), room.as_mut_ptr(), room.len(), needed) }
    })
}

/// The status and the bytes that are answered to the numbers of a type and of a value.
pub(crate) fn write_value(data_layout: &[u8], ty: &[u64], value: &[u64]) -> (u8, Vec<u8>) {
    lent(|room: &mut [u8], needed| {
        let string = data_layout;
        // SAFETY: as in `lay_out`.
        unsafe {
            let (value, count) = (value.as_ptr(), value.len());
            abi_c_write_value(string.as_ptr(), string.len(), ty.as_ptr(), ty.len(), value, count, room.as_mut_ptr(), room.len(), needed)
        }
    })
}

/// The status and the numbers of a value that are answered to the numbers of a type and to bytes.
pub(crate) fn read_value(data_layout: &[u8], ty: &[u64], bytes: &[u8]) -> (u8, Vec<u64>) {
    lent(|room: &mut [u64], needed| {
        let string = data_layout;
        // SAFETY: as in `lay_out`.
        unsafe {
            let (bytes, count) = (bytes.as_ptr(), bytes.len());
            abi_c_read_value(string.as_ptr(), string.len(), ty.as_ptr(), ty.len(), bytes, count, room.as_mut_ptr(), room.len(), needed)
        }
    })
}

/// The status and the numbers that are answered to the numbers of a type, of what may be done with its bytes.
pub(crate) fn bytes_of(data_layout: &[u8], ty: &[u64]) -> (u8, Vec<u64>) {
    lent(|room: &mut [u64], needed| {
        let string = data_layout;
        // SAFETY: as in `lay_out`.
        unsafe { abi_c_bytes(string.as_ptr(), string.len(), ty.as_ptr(), ty.len(), room.as_mut_ptr(), room.len(), needed) }
    })
}

/// The status and the numbers that are answered to the numbers of two types.
pub(crate) fn transmute(data_layout: &[u8], first: &[u64], second: &[u64]) -> (u8, Vec<u64>) {
    lent(|room: &mut [u64], needed| {
        let string = data_layout;
        // SAFETY: as in `lay_out`.
        unsafe {
            let (second, count) = (second.as_ptr(), second.len());
            abi_c_transmute(string.as_ptr(), string.len(), first.as_ptr(), first.len(), second, count, room.as_mut_ptr(), room.len(), needed)
        }
    })
}

/// The status and the document that are answered to files and to the lines that ask.
pub(crate) fn types(files: &[(String, Vec<u8>)], asked: &[u8]) -> (u8, Vec<u8>) {
    let files: Vec<File> = files
        .iter()
        .map(|(path, text)| File { path: path.as_ptr(), path_len: path.len(), text: text.as_ptr(), text_len: text.len() })
        .collect();
    lent(|room: &mut [u8], needed| {
        // SAFETY: as in `lay_out`; the texts that the files point to are borrowed for the call, too.
        unsafe { abi_c_types(files.as_ptr(), files.len(), asked.as_ptr(), asked.len(), room.as_mut_ptr(), room.len(), needed) }
    })
}
