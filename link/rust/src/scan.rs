//! Captures of any length (document 02, order 5, every position): where a marker stands and stands again one frame later, from pieces of any size.
//!
//! ```
//! use gatulefo::scan::{Meeting, Scan, WINDOW};
//!
//! let mut capture = [0; 32];
//! for frame in 0..4 {
//!     capture[8 * frame + 1..8 * frame + 5].copy_from_slice(&0x1acf_fc1d_u32.to_be_bytes());
//! }
//! let mut window = [0; WINDOW];
//! let mut scan = Scan::start(&mut window, 0x1acf_fc1d, 2, 64).unwrap();
//! let mut positions = vec![];
//! for mut piece in capture.chunks(5) {
//!     while !piece.is_empty() {
//!         piece = &piece[scan.feed(piece)..];
//!         positions.extend(scan.by_ref().map(|meeting| meeting.position));
//!     }
//! }
//! assert_eq!(positions, [8, 72, 136]);
//! assert_eq!(scan.end(), Ok(()));
//!
//! let mut window = [0; WINDOW];
//! let mut scan = Scan::start(&mut window, 0x1acf_fc1f, 2, 64).unwrap();
//! assert_eq!(scan.feed(&capture), 32);
//! assert_eq!(scan.next(), Some(Meeting { position: 8, first: 1, second: 1 }));
//! assert_eq!(Scan::start(&mut [0; WINDOW], 0x1acf_fc1d, 9, 64).err().map(|refusal| refusal.number), Some(8));
//! ```

use crate::Refusal;

/// A window of so many bytes is enough for every frame length.
pub const WINDOW: usize = 8197;

/// Where a marker stands, and stands again one frame later.
#[derive(Debug, Copy, Clone, PartialEq, Eq)]
pub struct Meeting {
    /// The bit position in the capture, counted from the top bit of its first byte.
    pub position: u64,
    /// In how many bits the 32 bits there differ from the marker.
    pub first: u32,
    /// In how many bits those one frame later do.
    pub second: u32,
}

#[repr(C)]
#[derive(Debug, Copy, Clone)]
pub(crate) struct ScanState {
    before: u64,
    filled: usize,
    from: usize,
}

#[repr(C)]
struct FedState {
    used: usize,
    state: ScanState,
}

#[repr(C)]
struct MeetingOrNone {
    position: u64,
    first: u32,
    second: u32,
    met: bool,
    state: ScanState,
}

/// A capture that comes in pieces, as far as it has come and has been searched. Feed a piece, as far as it is taken; ask for meetings until there is none; feed
/// the rest. As an iterator it gives the meetings of what has come that were not given yet, in order, and it goes on where it ended when more is fed.
#[derive(Debug)]
pub struct Scan<'a> {
    window: &'a mut [u8],
    table: [u64; 1280],
    marker: u32,
    tolerance: u32,
    length: u32,
    state: ScanState,
    met: bool,
}

impl<'a> Scan<'a> {
    /// A capture of which nothing has come: where the marker stands and stands again `length` bits later, each off by at most `tolerance` bits. The window is
    /// the scan's until that ends; a longer one than [`WINDOW`] is moved less often.
    ///
    /// # Errors
    ///
    /// 8 tolerance above 8; 9 length outside 64 to 65,536; in that order.
    ///
    /// # Panics
    ///
    /// If the window has no more than (length + 38) / 8 bytes.
    pub fn start(window: &'a mut [u8], marker: u32, tolerance: u32, length: u32) -> Result<Self, Refusal> {
        let state = call!("gatulefo_" scan_start() -> ScanState);
        let mut scan = Self { window, table: [0; 1280], marker, tolerance, length, state, met: false };
        // Where neither is refused, a capture of no byte is, with 10.
        scan.end().or_else(|refusal| if refusal.number < 10 { Err(refusal) } else { Ok(()) })?;
        assert!(scan.window.len() > (length as usize + 38) / 8, "the window is too short for frames of {length} bits");
        let table = &mut scan.table;
        call!("gatulefo_" scan_columns(table: &mut [u64; 1280], marker: u32, tolerance: u32) -> ());
        Ok(scan)
    }

    /// Takes as much of a piece as there is room for, and says how many bytes. Once [`next`](Self::next) has said that there is no meeting left, some are taken
    /// of any piece that has any, up to 2^60 bytes of a capture.
    pub fn feed(&mut self, piece: &[u8]) -> usize {
        let (window, state) = (&mut *self.window, self.state);
        let fed = call!("gatulefo_" scan_feed(window: &mut [u8], state: ScanState, piece: &[u8]) -> FedState);
        self.state = fed.state;
        fed.used
    }

    /// What the scan ends with, once the capture has come whole and every meeting was asked for.
    ///
    /// # Errors
    ///
    /// 10 capture shorter than length + 32 bits; 11 none; in that order.
    pub fn end(&self) -> Result<(), Refusal> {
        let (state, tolerance, length, met) = (self.state, self.tolerance, self.length, self.met);
        Refusal::or(call!("gatulefo_" scan_end(state: ScanState, tolerance: u32, length: u32, met: bool) -> u8), ())
    }
}

impl Iterator for Scan<'_> {
    type Item = Meeting;

    fn next(&mut self) -> Option<Meeting> {
        let (window, state, table) = (&*self.window, self.state, &self.table);
        let (marker, tolerance, length) = (self.marker, self.tolerance, self.length);
        let next = call!("gatulefo_" scan_next(
            window: &[u8], state: ScanState, table: &[u64; 1280], marker: u32, tolerance: u32, length: u32
        ) -> MeetingOrNone);
        self.state = next.state;
        self.met |= next.met;
        next.met.then_some(Meeting { position: next.position, first: next.first, second: next.second })
    }
}
