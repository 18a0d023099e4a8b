//! A safe wrapper of the calls for a file that is opened once. Each slice and reference meets what
//! `include/resb.h` asks, and what leads into the file or its pool borrows them.
use crate::resb::{Error, Input};
use std::marker::PhantomData;

/// As `resb_bytes` of the header.
#[repr(C)]
#[derive(Clone, Copy)]
struct Bytes {
    bytes: *const u8,
    length: usize,
}

/// As `resb_resource` of the header.
#[repr(C)]
#[derive(Clone, Copy)]
pub struct Resource {
    form: u32,
    number: u32,
}

/// As `resb_opened` of the header.
#[repr(C)]
struct Parts {
    root: Resource,
    count: usize,
    parts: [Bytes; 5],
    limit: u32,
    short_limit: u16,
    ascends: u16,
}

/// The status where a buffer is too short.
const TOO_SHORT: u32 = 1;

const NO_RESOURCE: Resource = Resource { form: 2, number: 0 };

const NO_BYTES: Bytes = Bytes { bytes: [].as_ptr(), length: 0 };

extern "C" {
    fn resb_open(
        file: *const u8,
        file_length: usize,
        pool: *const u8,
        pool_length: usize,
        opened: *mut Parts,
        error: *mut Error,
    ) -> u32;
    fn resb_find(
        opened: *const Parts,
        from: Resource,
        path: *const u8,
        path_length: usize,
        found: *mut Resource,
    ) -> u32;
    fn resb_member(
        opened: *const Parts,
        resource: Resource,
        number: usize,
        member: *mut Resource,
    ) -> u32;
    fn resb_value(
        opened: *const Parts,
        resource: Resource,
        key: *const u8,
        key_length: usize,
        value: *mut Resource,
    ) -> u32;
    fn resb_key_of(
        opened: *const Parts,
        resource: Resource,
        number: usize,
        key: *mut Bytes,
    ) -> u32;
    fn resb_kind_of(
        opened: *const Parts,
        resource: Resource,
        kind: *mut u32,
        size: *mut usize,
    ) -> u32;
    fn resb_integer_of(opened: *const Parts, resource: Resource, value: *mut i32) -> u32;
    fn resb_unsigned_of(opened: *const Parts, resource: Resource, value: *mut u32) -> u32;
    fn resb_string_of(
        opened: *const Parts,
        resource: Resource,
        out: *mut u8,
        out_length: usize,
        length: *mut usize,
    ) -> u32;
    fn resb_bytes_of(opened: *const Parts, resource: Resource, bytes: *mut Bytes) -> u32;
    fn resb_vector_of(opened: *const Parts, resource: Resource, numbers: *mut Bytes) -> u32;
}

/// A file that was opened, with the pool bundle that it uses.
pub struct Opened<'a> {
    parts: Parts,
    input: PhantomData<&'a [u8]>,
}

/// What is answered, or the status that says why not.
pub type Answer<T> = Result<T, u32>;

/// The value where the status is that of success.
fn answer<T>(status: u32, value: T) -> Answer<T> {
    if status == 0 {
        Ok(value)
    } else {
        Err(status)
    }
}

impl<'a> Opened<'a> {
    /// Opens a file, which checks it as a whole.
    pub fn new(input: Input<'a>) -> Result<Opened<'a>, Error> {
        let Input { file, pool } = input;
        let mut error = Error::none();
        let mut parts = Parts {
            root: NO_RESOURCE,
            count: 0,
            parts: [NO_BYTES; 5],
            limit: 0,
            short_limit: 0,
            ascends: 0,
        };
        let status = unsafe {
            resb_open(
                file.as_ptr(),
                file.len(),
                pool.as_ptr(),
                pool.len(),
                &mut parts,
                &mut error,
            )
        };
        match status {
            0 => Ok(Opened { parts, input: PhantomData }),
            _ => Err(error),
        }
    }

    /// The root.
    pub fn root(&self) -> Resource {
        self.parts.root
    }

    /// The resources, the root included.
    pub fn count(&self) -> usize {
        self.parts.count
    }

    /// What stands at a path from a resource on.
    pub fn find(&self, from: Resource, path: &str) -> Answer<Resource> {
        let mut found = NO_RESOURCE;
        let status =
            unsafe { resb_find(&self.parts, from, path.as_ptr(), path.len(), &mut found) };
        answer(status, found)
    }

    /// The member of an array, the value of an entry of a table, or the number of a vector.
    pub fn member(&self, resource: Resource, number: usize) -> Answer<Resource> {
        let mut member = NO_RESOURCE;
        let status = unsafe { resb_member(&self.parts, resource, number, &mut member) };
        answer(status, member)
    }

    /// The value of a table at a key.
    pub fn value(&self, resource: Resource, key: &str) -> Answer<Resource> {
        let mut value = NO_RESOURCE;
        let status =
            unsafe { resb_value(&self.parts, resource, key.as_ptr(), key.len(), &mut value) };
        answer(status, value)
    }

    /// The key of an entry of a table.
    pub fn key(&self, resource: Resource, number: usize) -> Answer<&'a str> {
        let mut key = NO_BYTES;
        let status = unsafe { resb_key_of(&self.parts, resource, number, &mut key) };
        let bytes = unsafe { std::slice::from_raw_parts(key.bytes, key.length) };
        answer(status, std::str::from_utf8(bytes).expect("keys are UTF-8"))
    }

    /// The kind, as the header numbers it, and how much is in it.
    pub fn kind(&self, resource: Resource) -> Answer<(u32, usize)> {
        let (mut kind, mut size) = (0, 0);
        let status = unsafe { resb_kind_of(&self.parts, resource, &mut kind, &mut size) };
        answer(status, (kind, size))
    }

    /// The number with its sign.
    pub fn integer(&self, resource: Resource) -> Answer<i32> {
        let mut value = 0;
        let status = unsafe { resb_integer_of(&self.parts, resource, &mut value) };
        answer(status, value)
    }

    /// The number without a sign.
    pub fn unsigned(&self, resource: Resource) -> Answer<u32> {
        let mut value = 0;
        let status = unsafe { resb_unsigned_of(&self.parts, resource, &mut value) };
        answer(status, value)
    }

    /// Copies the text of a string to the buffer, if that has room: its length.
    fn string_to(&self, resource: Resource, out: &mut [u8]) -> Answer<usize> {
        let mut length = 0;
        let (bytes, room) = (out.as_mut_ptr(), out.len());
        match unsafe { resb_string_of(&self.parts, resource, bytes, room, &mut length) } {
            0 | TOO_SHORT => Ok(length),
            status => Err(status),
        }
    }

    /// The text of a string.
    pub fn string(&self, resource: Resource) -> Answer<String> {
        let mut text = vec![0; self.string_to(resource, &mut [])?];
        self.string_to(resource, &mut text)?;
        Ok(String::from_utf8_lossy(&text).into_owned())
    }

    /// The bytes of a binary.
    pub fn bytes(&self, resource: Resource) -> Answer<&'a [u8]> {
        let mut bytes = NO_BYTES;
        let status = unsafe { resb_bytes_of(&self.parts, resource, &mut bytes) };
        answer(status, unsafe { std::slice::from_raw_parts(bytes.bytes, bytes.length) })
    }

    /// The numbers of a vector, without a sign.
    pub fn vector(&self, resource: Resource) -> Answer<impl Iterator<Item = u32> + 'a> {
        let mut numbers = NO_BYTES;
        let status = unsafe { resb_vector_of(&self.parts, resource, &mut numbers) };
        let bytes = unsafe { std::slice::from_raw_parts(numbers.bytes, numbers.length) };
        let of_four = |b: &[u8]| u32::from_le_bytes([b[0], b[1], b[2], b[3]]);
        answer(status, bytes.chunks_exact(4).map(of_four))
    }
}
