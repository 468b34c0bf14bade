//! Bytes that columns share, wherever they stand.

use std::alloc::{alloc_zeroed, Layout};
use std::ops::Deref;
use std::ptr::NonNull;
use std::sync::Arc;

/// Memory that is not this crate's and stays as it is until it is dropped.
pub(crate) trait Keep: Send + Sync {
    /// All of it, where it is one slice.
    fn bytes(&self) -> Option<&[u8]> {
        None
    }
}

#[derive(Clone)]
enum Owner {
    Bytes(Arc<Vec<u8>>),
    Kept(Arc<dyn Keep>),
    /// Whoever lent the bytes promised to keep them.
    Lender,
}

/// Bytes, or a part of them, that columns share: of an allocation, of a mapped file or of another library. Two buffers are the same one
/// where they begin at the same byte in memory.
#[derive(Clone)]
pub struct Buffer {
    start: *const u8,
    len: usize,
    owner: Owner,
}

// the bytes are never written while a buffer leads to them, and the count of their owners is kept across threads
unsafe impl Send for Buffer {}
unsafe impl Sync for Buffer {}

impl Buffer {
    /// The bytes `start .. start + len` of an allocation.
    ///
    /// # Panics
    /// Where they are not in it.
    pub fn part(bytes: Arc<Vec<u8>>, start: usize, len: usize) -> Buffer {
        assert!(start.checked_add(len).is_some_and(|end| end <= bytes.len()), "a buffer outside its bytes");
        Buffer { start: bytes[start..].as_ptr(), len, owner: Owner::Bytes(bytes) }
    }

    /// The allocation that it is a part of, and where it begins there; None where the bytes are not this crate's.
    pub fn whole(&self) -> Option<(&Arc<Vec<u8>>, usize)> {
        match &self.owner {
            Owner::Bytes(bytes) => Some((bytes, self.start as usize - bytes.as_ptr() as usize)),
            _ => None,
        }
    }

    /// A part of it, over the same memory; None where it is not in it.
    pub fn slice(&self, start: usize, len: usize) -> Option<Buffer> {
        let part = self.get(start..start.checked_add(len)?)?;
        Some(Buffer { start: part.as_ptr(), len, owner: self.owner.clone() })
    }

    /// Bytes of another owner.
    ///
    /// # Safety
    /// They stay as they are as long as `keep` is not dropped; without one, as long as the buffer and its clones are used.
    pub(crate) unsafe fn foreign(start: *const u8, len: usize, keep: Option<Arc<dyn Keep>>) -> Buffer {
        let start = if start.is_null() { NonNull::dangling().as_ptr() } else { start.cast_mut() };
        Buffer { start, len, owner: keep.map_or(Owner::Lender, Owner::Kept) }
    }

    /// All bytes of its owner, as one buffer.
    pub(crate) fn region(&self) -> Option<Buffer> {
        let all = match &self.owner {
            Owner::Bytes(bytes) => bytes.as_slice(),
            Owner::Kept(keep) => keep.bytes()?,
            Owner::Lender => return None,
        };
        Some(Buffer { start: all.as_ptr(), len: all.len(), owner: self.owner.clone() })
    }

    /// Where it begins in memory, and where it ends.
    pub(crate) fn span(&self) -> (usize, usize) {
        (self.start as usize, self.start as usize + self.len)
    }
}

/// So many bytes of 0; None where the machine can't lend them.
pub(crate) fn zeros(bytes: u64) -> Option<Vec<u8>> {
    let len = usize::try_from(bytes).ok()?;
    let layout = Layout::array::<u8>(len).ok()?;
    if len == 0 {
        return Some(vec![]);
    }
    let start = unsafe { alloc_zeroed(layout) };
    // an allocation of the layout that a vector of so many bytes has
    (!start.is_null()).then(|| unsafe { Vec::from_raw_parts(start, len, len) })
}

impl Default for Buffer {
    fn default() -> Buffer {
        Buffer { start: NonNull::dangling().as_ptr(), len: 0, owner: Owner::Lender }
    }
}

impl From<Vec<u8>> for Buffer {
    fn from(bytes: Vec<u8>) -> Buffer {
        let len = bytes.len();
        Buffer { start: bytes.as_ptr(), len, owner: Owner::Bytes(Arc::new(bytes)) }
    }
}

impl Deref for Buffer {
    type Target = [u8];

    fn deref(&self) -> &[u8] {
        unsafe { std::slice::from_raw_parts(self.start, self.len) }
    }
}

impl std::fmt::Debug for Buffer {
    fn fmt(&self, f: &mut std::fmt::Formatter) -> std::fmt::Result {
        write!(f, "{:02x?}", &**self)
    }
}

impl PartialEq for Buffer {
    fn eq(&self, other: &Buffer) -> bool {
        **self == **other
    }
}
