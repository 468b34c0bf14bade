//! Files in memory: several side by side in one stretch of addresses, so that they are one body.

use crate::buffer::Keep;
use crate::Buffer;
use std::fs::File;
use std::io::{self, Read};
use std::sync::Arc;

/// A stretch of memory that files are mapped into.
#[cfg(target_os = "linux")]
struct Map {
    start: *mut u8,
    len: usize,
}

#[cfg(target_os = "linux")]
mod system {
    use std::ffi::{c_int, c_void};

    pub const READ: c_int = 1;
    pub const PRIVATE: c_int = 2;
    pub const FIXED: c_int = 0x10;
    pub const ANONYMOUS: c_int = 0x20;
    pub const NORESERVE: c_int = 0x4000;
    pub const PAGE: usize = 1 << 16;

    extern "C" {
        pub fn mmap(at: *mut c_void, len: usize, protection: c_int, flags: c_int, file: c_int, offset: i64) -> *mut c_void;
        pub fn munmap(at: *mut c_void, len: usize) -> c_int;
    }
}

// nobody writes the memory
#[cfg(target_os = "linux")]
unsafe impl Send for Map {}
#[cfg(target_os = "linux")]
unsafe impl Sync for Map {}

#[cfg(target_os = "linux")]
impl Drop for Map {
    fn drop(&mut self) {
        unsafe { system::munmap(self.start.cast(), self.len) };
    }
}

#[cfg(target_os = "linux")]
impl Keep for Map {
    fn bytes(&self) -> Option<&[u8]> {
        Some(unsafe { std::slice::from_raw_parts(self.start, self.len) })
    }
}

/// A file, and its bytes where they can be mapped.
fn open(path: &str) -> io::Result<(Option<File>, usize)> {
    if path == "-" {
        return Ok((None, 0));
    }
    let file = File::open(path)?;
    let facts = file.metadata()?;
    Ok(if facts.is_file() { (Some(file), facts.len() as usize) } else { (Some(file), 0) })
}

fn whole(path: &str, file: Option<File>) -> io::Result<Buffer> {
    let mut bytes = vec![];
    match file {
        Some(mut file) => file.read_to_end(&mut bytes)?,
        None if path == "-" => io::stdin().read_to_end(&mut bytes)?,
        None => 0,
    };
    Ok(bytes.into())
}

/// The bytes of the files. Regular files are mapped: they must not be made shorter while the buffers are used. `-` is standard input,
/// which is read like a pipe to its end. Errors name their file by its number.
pub fn files(paths: &[&str]) -> Result<Vec<Buffer>, (usize, io::Error)> {
    let mut opened = vec![];
    for (k, path) in paths.iter().enumerate() {
        opened.push(open(path).map_err(|e| (k, e))?);
    }
    let lengths: Vec<usize> = opened.iter().map(|o| o.1).collect();
    let map = reserve(&lengths).map_err(|e| (0, e))?;
    let mut at = 0;
    let mut out = vec![];
    for (k, ((file, len), path)) in opened.into_iter().zip(paths).enumerate() {
        let buffer = match (&map, len) {
            (Some(map), len) if len != 0 => place(map, at, len, file.as_ref()),
            _ => whole(path, file),
        };
        out.push(buffer.map_err(|e| (k, e))?);
        at += room(len);
    }
    Ok(out)
}

#[cfg(target_os = "linux")]
fn room(len: usize) -> usize {
    len.next_multiple_of(system::PAGE)
}

/// Addresses for files of these lengths; all of them can be read, files or not.
#[cfg(target_os = "linux")]
fn reserve(lengths: &[usize]) -> io::Result<Option<Arc<Map>>> {
    use system::{mmap, ANONYMOUS, NORESERVE, PRIVATE, READ};
    let len: usize = lengths.iter().map(|n| room(*n)).sum();
    if len == 0 {
        return Ok(None);
    }
    let start = unsafe { mmap(std::ptr::null_mut(), len, READ, PRIVATE | ANONYMOUS | NORESERVE, -1, 0) };
    if start as isize == -1 {
        return Err(io::Error::last_os_error());
    }
    Ok(Some(Arc::new(Map { start: start.cast(), len })))
}

/// Maps a file of so many bytes into its place.
#[cfg(target_os = "linux")]
fn place(map: &Arc<Map>, at: usize, len: usize, file: Option<&File>) -> io::Result<Buffer> {
    use std::os::fd::AsRawFd;
    use system::{mmap, FIXED, PRIVATE, READ};
    let Some(file) = file else { return Ok(Buffer::default()) };
    let to = unsafe { map.start.add(at) };
    let mapped = unsafe { mmap(to.cast(), len, READ, PRIVATE | FIXED, file.as_raw_fd(), 0) };
    if mapped as isize == -1 {
        return Err(io::Error::last_os_error());
    }
    let keep: Arc<dyn Keep> = map.clone();
    Ok(unsafe { Buffer::foreign(to, len, Some(keep)) })
}

#[cfg(not(target_os = "linux"))]
fn room(len: usize) -> usize {
    len
}

#[cfg(not(target_os = "linux"))]
fn reserve(_: &[usize]) -> io::Result<Option<Arc<()>>> {
    Ok(None)
}

#[cfg(not(target_os = "linux"))]
fn place(_: &Arc<()>, _: usize, _: usize, _: Option<&File>) -> io::Result<Buffer> {
    Ok(Buffer::default())
}
