//! The bytes of a file, lent for a while: by a map where there is one, so that they take no memory of the
//! process, else by a read.

use std::fs::File;
use std::io;

pub(crate) use self::lent::lend;

/// The two system calls. They are declared here and not taken from a crate: these are all that is needed
/// of one, and both have been the same on every Unix for decades.
#[cfg(all(unix, any(target_pointer_width = "64", target_os = "linux")))]
mod lent {
    use std::ffi::{c_int, c_long, c_void};
    use std::os::fd::AsRawFd;
    use std::{ptr, slice};

    use super::*;

    const READ: c_int = 1;
    const SHARED: c_int = 1;

    extern "C" {
        fn mmap(
            at: *mut c_void,
            length: usize,
            protection: c_int,
            flags: c_int,
            file: c_int,
            offset: c_long,
        ) -> *mut c_void;
        fn munmap(at: *mut c_void, length: usize) -> c_int;
    }

    struct Map {
        at: *mut c_void,
        length: usize,
    }

    impl Drop for Map {
        fn drop(&mut self) {
            // SAFETY: it was mapped with this length, and nothing of it is lent any more.
            unsafe { munmap(self.at, self.length) };
        }
    }

    /// Lends the first so many bytes of a file that is locked: nobody changes it meanwhile.
    pub(crate) fn lend<T>(
        file: &mut File,
        length: u64,
        to: impl FnOnce(&[u8]) -> T,
    ) -> io::Result<T> {
        let length = usize::try_from(length).map_err(io::Error::other)?;
        if length == 0 {
            return Ok(to(&[]));
        }
        // SAFETY: a new map, at a place that the system chooses.
        let at = unsafe { mmap(ptr::null_mut(), length, READ, SHARED, file.as_raw_fd(), 0) };
        if at as isize == -1 {
            return Err(io::Error::last_os_error());
        }
        let map = Map { at, length };
        // SAFETY: mapped to be read, for as long as `map` is there; who holds the file's lock neither writes
        // to it nor cuts it meanwhile, and nobody else may.
        let bytes = unsafe { slice::from_raw_parts(map.at.cast::<u8>(), map.length) };
        Ok(to(bytes))
    }
}

#[cfg(not(all(unix, any(target_pointer_width = "64", target_os = "linux"))))]
mod lent {
    use std::io::{Read, Seek, SeekFrom};

    use super::*;

    /// Lends the first so many bytes of a file.
    pub(crate) fn lend<T>(
        file: &mut File,
        length: u64,
        to: impl FnOnce(&[u8]) -> T,
    ) -> io::Result<T> {
        let length = usize::try_from(length).map_err(io::Error::other)?;
        let mut bytes = Vec::new();
        bytes.try_reserve_exact(length).map_err(io::Error::other)?;
        bytes.resize(length, 0);
        file.seek(SeekFrom::Start(0))?;
        file.read_exact(&mut bytes)?;
        Ok(to(&bytes))
    }
}
