//! What the comparison and the benchmark share: which function, its lengths, what the independent
//! program answers; and, for the benchmark (feature `archive`), the archive's functions and the plain
//! C ones that they are timed beside.

/// A function of the boundary: bytes to read and their count, bytes to write and theirs.
pub type Function = unsafe extern "C" fn(*const u8, usize, *mut u8, usize) -> i32;

#[cfg(feature = "archive")]
mod archive {
    extern "C" {
        pub fn oatlantern_read_frame(
            frame: *const u8,
            frame_len: usize,
            record: *mut u8,
            record_len: usize,
        ) -> i32;
        pub fn oatlantern_write_frame(
            record: *const u8,
            record_len: usize,
            frame: *mut u8,
            frame_len: usize,
        ) -> i32;
    }
}

#[cfg(feature = "archive")]
mod c {
    extern "C" {
        pub fn plain_read_frame(
            frame: *const u8,
            frame_len: usize,
            record: *mut u8,
            record_len: usize,
        ) -> i32;
        pub fn plain_write_frame(
            record: *const u8,
            record_len: usize,
            frame: *mut u8,
            frame_len: usize,
        ) -> i32;
    }
}

/// Which of the two.
#[derive(Clone, Copy, Debug, PartialEq, Eq)]
pub enum Which {
    Reader,
    Writer,
}

impl Which {
    /// The archive's.
    #[cfg(feature = "archive")]
    pub fn archive(self) -> Function {
        match self {
            Which::Reader => archive::oatlantern_read_frame,
            Which::Writer => archive::oatlantern_write_frame,
        }
    }

    /// The one in plain C.
    #[cfg(feature = "archive")]
    pub fn plain(self) -> Function {
        match self {
            Which::Reader => c::plain_read_frame,
            Which::Writer => c::plain_write_frame,
        }
    }

    /// The independent program's.
    pub fn independent(self, given: &[u8], lent: &mut [u8]) -> i32 {
        match self {
            Which::Reader => outside::frame::read_c(given, lent),
            Which::Writer => outside::frame::write_c(given, lent),
        }
    }

    /// The lengths that are not refused: of what is given, of what is lent.
    pub fn lengths(self) -> (usize, usize) {
        match self {
            Which::Reader => (outside::frame::FRAME_LENGTH, outside::frame::RECORD_LENGTH),
            Which::Writer => (outside::frame::RECORD_LENGTH, outside::frame::FRAME_LENGTH),
        }
    }
}

/// Calls a function of the boundary.
pub fn call(function: Function, given: &[u8], lent: &mut [u8]) -> i32 {
    // SAFETY: two slices that the borrow checker keeps apart, each good for its length.
    unsafe { function(given.as_ptr(), given.len(), lent.as_mut_ptr(), lent.len()) }
}

/// The longest buffer of a case.
pub const ROOM: usize = 176;

/// Bytes as text.
pub fn hex(bytes: &[u8]) -> String {
    bytes.iter().map(|byte| format!("{byte:02x}")).collect()
}

/// A record as the bytes that the boundary takes.
pub fn record_bytes(fields: &[u16; 28]) -> [u8; 56] {
    let mut bytes = [0; 56];
    for (pair, index) in bytes.chunks_exact_mut(2).zip(fields) {
        pair.copy_from_slice(&index.to_le_bytes());
    }
    bytes
}
