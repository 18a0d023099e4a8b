//! A safe wrapper of the library for C. Each slice and reference meets what `include/resb.h` asks.
use std::fmt;

/// As `resb_error` of the header.
#[repr(C)]
pub struct Error {
    pub kind: u32,
    pub place: usize,
    message: [u8; 256],
}

impl Error {
    pub fn none() -> Error {
        Error { kind: 0, place: 0, message: [0; 256] }
    }

    /// Whether the fault is at its place of the text.
    pub fn has_place(&self) -> bool {
        matches!(self.kind, NOT_UTF8 | NOT_A_BUNDLE)
    }
}

impl fmt::Display for Error {
    fn fmt(&self, f: &mut fmt::Formatter<'_>) -> fmt::Result {
        let end = self.message.iter().position(|b| *b == 0).unwrap_or(256);
        let message = String::from_utf8_lossy(&self.message[..end]);
        write!(f, "fault {}: {message}", self.kind)
    }
}

/// As `resb_measured` of the header.
#[repr(C)]
#[derive(Default)]
pub struct Measured {
    pub resources: usize,
    pub tables: u64,
    pub entries: u64,
    pub key_bytes: u64,
    pub text_bytes: u64,
    pub binary_bytes: u64,
    pub numbers: u64,
    pub tree_bytes: u64,
}

const OK: u32 = 0;
const TOO_SHORT: u32 = 1;
const NOT_UTF8: u32 = 2;
const NOT_A_BUNDLE: u32 = 3;

/// The kind of a table.
pub const TABLE: u32 = 2;

/// The name of a kind, that of its type in a text of ICU's form, as the header has it.
pub fn kind_name(kind: u32) -> &'static str {
    match kind {
        1 => "string",
        TABLE => "table",
        3 => "array",
        4 => "int",
        5 => "intvector",
        6 => "bin",
        7 => "alias",
        _ => "unknown",
    }
}

/// As `resb_options` of the header.
#[repr(C)]
struct Options {
    size: usize,
    form: u32,
    compact: u32,
    limit: u64,
    pool: *const u8,
    pool_length: usize,
    name: *const u8,
    name_length: usize,
}

extern "C" {
    fn resb_compile(
        text: *const u8,
        text_length: usize,
        options: *const Options,
        out: *mut u8,
        out_length: usize,
        length: *mut usize,
        error: *mut Error,
    ) -> u32;
    fn resb_location(
        text: *const u8,
        text_length: usize,
        place: usize,
        line: *mut usize,
        column: *mut usize,
    );
    fn resb_check(
        file: *const u8,
        file_length: usize,
        pool: *const u8,
        pool_length: usize,
        measured: *mut Measured,
        error: *mut Error,
    ) -> u32;
    fn resb_dump(
        file: *const u8,
        file_length: usize,
        options: *const Options,
        out: *mut u8,
        out_length: usize,
        length: *mut usize,
        error: *mut Error,
    ) -> u32;
    fn resb_zone_offset(
        file: *const u8,
        file_length: usize,
        zone: *const u8,
        zone_length: usize,
        moment: i64,
        offset: *mut i64,
        error: *mut Error,
    ) -> u32;
}

/// The form of a text that is read or written, by its number.
#[derive(Clone, Copy)]
pub enum Form {
    Plain = 0,
    /// ICU's own, which `genrb` reads.
    Icu = 1,
    /// JSON, which is written and not read.
    Json = 2,
}

/// What is wanted of a call.
#[derive(Clone, Copy)]
pub struct Wanted<'a> {
    pub form: Form,
    /// The most bytes that the call may make.
    pub limit: u64,
    /// The pool bundle: empty where there is none.
    pub pool: &'a [u8],
    /// The bundle's name.
    pub name: &'a str,
}

impl Wanted<'_> {
    /// The options for the library. They point to what is wanted.
    fn options(&self) -> Options {
        Options {
            size: std::mem::size_of::<Options>(),
            form: self.form as u32,
            compact: 0,
            limit: self.limit,
            pool: self.pool.as_ptr(),
            pool_length: self.pool.len(),
            name: self.name.as_ptr(),
            name_length: self.name.len(),
        }
    }
}

/// The signature of `resb_compile` and `resb_dump`.
type Call = unsafe extern "C" fn(
    *const u8,
    usize,
    *const Options,
    *mut u8,
    usize,
    *mut usize,
    *mut Error,
) -> u32;

/// What a call makes of these bytes: asked for its length first, and then for all of it.
fn made(call: Call, bytes: &[u8], wanted: Wanted<'_>) -> Result<Vec<u8>, Error> {
    let (options, mut length, mut error) = (wanted.options(), 0, Error::none());
    let mut out = Vec::new();
    loop {
        let status = unsafe {
            call(
                bytes.as_ptr(),
                bytes.len(),
                &options,
                out.as_mut_ptr(),
                out.len(),
                &mut length,
                &mut error,
            )
        };
        match status {
            OK => return Ok(out),
            TOO_SHORT => out = vec![0; length],
            _ => return Err(error),
        }
    }
}

/// The file of a bundle's text, which is UTF-8.
pub fn compile(text: &[u8], wanted: Wanted<'_>) -> Result<Vec<u8>, Error> {
    made(resb_compile, text, wanted)
}

/// The text of a file's tree, or its JSON.
pub fn dump(file: &[u8], wanted: Wanted<'_>) -> Result<String, Error> {
    Ok(String::from_utf8_lossy(&made(resb_dump, file, wanted)?).into_owned())
}

/// The line and the column of a place of a text, from 1.
pub fn location(text: &[u8], place: usize) -> (usize, usize) {
    let (mut line, mut column) = (0, 0);
    unsafe { resb_location(text.as_ptr(), text.len(), place, &mut line, &mut column) };
    (line, column)
}

/// A file, and the pool bundle that it uses: empty where there is none.
#[derive(Clone, Copy)]
pub struct Input<'a> {
    pub file: &'a [u8],
    pub pool: &'a [u8],
}

/// Checks a file as a whole, and gives what its tree adds up to.
pub fn check(input: Input<'_>) -> Result<Measured, Error> {
    let Input { file, pool } = input;
    let (mut measured, mut error) = (Measured::default(), Error::none());
    let status = unsafe {
        resb_check(
            file.as_ptr(),
            file.len(),
            pool.as_ptr(),
            pool.len(),
            &mut measured,
            &mut error,
        )
    };
    match status {
        OK => Ok(measured),
        _ => Err(error),
    }
}

/// The offset of a time zone in seconds, at a moment in seconds since 1970, out of ICU's file of
/// zones.
pub fn zone_offset(file: &[u8], zone: &str, moment: i64) -> Result<i64, Error> {
    let (mut offset, mut error) = (0, Error::none());
    let status = unsafe {
        resb_zone_offset(
            file.as_ptr(),
            file.len(),
            zone.as_ptr(),
            zone.len(),
            moment,
            &mut offset,
            &mut error,
        )
    };
    match status {
        OK => Ok(offset),
        _ => Err(error),
    }
}
