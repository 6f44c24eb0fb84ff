//! The types of the port's public calls.

/// A wall coordinate, counted from the job's origin: row, then column.
#[derive(Clone, Copy, Debug, PartialEq, Eq)]
pub struct World(pub i32, pub i32);

/// Index = coordinate + offset.
#[derive(Clone, Copy, Debug, PartialEq, Eq)]
pub struct Offset(pub i32, pub i32);

/// A cell index, counted from the grid's corner: row, then column.
#[derive(Clone, Copy, Debug, PartialEq, Eq)]
pub struct Cell(pub usize, pub usize);

/// The indices from the first number up to, not including, the second.
#[derive(Clone, Copy, Debug, PartialEq, Eq)]
pub struct Span(pub usize, pub usize);

#[derive(Clone, Copy, Debug, PartialEq, Eq)]
pub struct BoundingBox {
    pub min: World,
    pub max: World,
}

/// Left and right belong to the rows, top and bottom to the columns.
#[derive(Clone, Copy, Debug, PartialEq, Eq)]
pub struct Pads {
    pub left: usize,
    pub right: usize,
    pub top: usize,
    pub bottom: usize,
}

#[derive(Clone, Copy, Debug, PartialEq, Eq)]
pub struct ExtensionInfo {
    pub pads: Pads,
    pub offset: Offset,
    pub needed: bool,
}

/// Colour t is in the set where bit t-1 of `bits` is set.
#[derive(Clone, Copy, Debug, PartialEq, Eq)]
pub struct TileBitset {
    pub bits: u32,
    pub size: u32,
}

/// The members of a set, ascending; the entries past `len` are 0.
#[derive(Clone, Copy, Debug, PartialEq, Eq)]
pub struct ColourList {
    pub colours: [u8; 30],
    pub len: usize,
}

#[derive(Clone, Copy, Debug, PartialEq, Eq)]
pub struct ForcedPosition {
    pub coordinates: World,
    pub colour: u32,
}

pub const NO_POSITION: ForcedPosition = ForcedPosition { coordinates: World(0, 0), colour: 0 };

/// What forced neighbours answers and the queue takes.
#[derive(Clone, Copy, Debug, PartialEq, Eq)]
pub struct ForcedPositions {
    pub entries: [ForcedPosition; 8],
    pub len: usize,
}

/// The queue: entries stand from entry 0, next out first.
#[derive(Clone, Copy, Debug, PartialEq, Eq)]
pub struct ForcedPipeline {
    pub entries: [ForcedPosition; 64],
    pub len: usize,
}

/// A refusal is its number alone.
pub type Refusal = u8;
pub type Answer<T> = Result<T, Refusal>;

pub const SHAPE: Refusal = 1;
pub const LENGTH: Refusal = 2;
pub const COUNT: Refusal = 3;
pub const CELL: Refusal = 4;
pub const NUMBER: Refusal = 5;
pub const PLACE: Refusal = 6;
pub const TYPE: Refusal = 7;
pub const TAKEN: Refusal = 8;
pub const BARE: Refusal = 9;
pub const ROOM: Refusal = 10;

/// How a forced run ends, as it tells it: no entry waits, the budget is spent, or an adding would meet ROOM.
pub const DONE: u64 = 0;
pub const SPENT: u64 = 1;
pub const FULL: u64 = 2;
