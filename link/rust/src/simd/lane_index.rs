//! Lane numbers that are in range by their making.
//!
//! After `src/simd.rs` of wasmi_core 2.0.0 (Robin Freyler, MIT/Apache-2.0), changed: its types of lane numbers with their names, conversions and doc lines
//! stand here by themselves, and the macros are written anew. The other files of this crate have its names and signatures alone.

/// An error that may occur when constructing an out of bounds lane index.
pub struct OutOfBoundsLaneIdx;

/// Helper trait used to infer the [`ImmLaneIdx`] from a given primitive.
pub trait IntoLaneIdx {
    /// The associated lane index type.
    type LaneIdx: Sized + Copy + TryFrom<u8, Error = OutOfBoundsLaneIdx> + Into<u8>;
}

macro_rules! into_lane_index {
    ( $( $ty:ty => $lanes:literal; )* ) => { $(
        impl IntoLaneIdx for $ty {
            type LaneIdx = ImmLaneIdx<$lanes>;
        }
    )* };
}
into_lane_index! {
    i8 => 16;
    u8 => 16;
    i16 => 8;
    u16 => 8;
    i32 => 4;
    u32 => 4;
    f32 => 4;
    i64 => 2;
    u64 => 2;
    f64 => 2;
}

/// A byte with values in the range 0 to N − 1 identifying a lane.
#[derive(Debug, Copy, Clone, PartialEq, Eq)]
pub struct ImmLaneIdx<const N: u8>(u8);

impl<const N: u8> From<ImmLaneIdx<N>> for u8 {
    #[inline]
    fn from(lane: ImmLaneIdx<N>) -> u8 {
        lane.0
    }
}

impl<const N: u8> TryFrom<u8> for ImmLaneIdx<N> {
    type Error = OutOfBoundsLaneIdx;

    #[inline]
    fn try_from(lane: u8) -> Result<Self, Self::Error> {
        if lane < N { Ok(Self(lane)) } else { Err(OutOfBoundsLaneIdx) }
    }
}

/// A byte with values in the range 0 to 1 identifying a lane.
pub type ImmLaneIdx2 = ImmLaneIdx<2>;
/// A byte with values in the range 0 to 3 identifying a lane.
pub type ImmLaneIdx4 = ImmLaneIdx<4>;
/// A byte with values in the range 0 to 7 identifying a lane.
pub type ImmLaneIdx8 = ImmLaneIdx<8>;
/// A byte with values in the range 0 to 15 identifying a lane.
pub type ImmLaneIdx16 = ImmLaneIdx<16>;
/// A byte with values in the range 0 to 31 identifying a lane.
pub type ImmLaneIdx32 = ImmLaneIdx<32>;
