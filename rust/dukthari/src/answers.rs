//! The answers of the C calls as they come: every field, on refusals too.
use crate::refusal::{granted, Refusal};
use crate::{Place, Sizes, Verdict};

/// A call with no value.
#[repr(C)]
#[derive(Clone, Copy, Debug, PartialEq, Eq, Hash)]
pub struct Done {
    /// 0 when the call is granted, else the number of the refusal.
    pub refusal: u32,
    /// Of refusal 4 the node of the first bad cell, else 0.
    pub bad: u32,
}

/// A number, or a length written.
#[repr(C)]
#[derive(Clone, Copy, Debug, PartialEq, Eq, Hash)]
pub struct Counted {
    /// 0 when the call is granted, else the number of the refusal.
    pub refusal: u32,
    /// Of refusal 4 the node of the first bad cell, else 0.
    pub bad: u32,
    /// The number, or how many places were written.
    pub count: u32,
}

/// A verdict.
#[repr(C)]
#[derive(Clone, Copy, Debug, PartialEq, Eq, Hash)]
pub struct VerdictAnswer {
    /// 0 when the call is granted, else the number of the refusal.
    pub refusal: u32,
    /// Of refusal 4 the node of the first bad cell, else 0.
    pub bad: u32,
    /// How many steps a path has.
    pub hops: u32,
    /// Bit k is set when a path begins in direction k.
    pub offered: u32,
}

/// The sizes of a map that was read.
#[repr(C)]
#[derive(Clone, Copy, Debug, PartialEq, Eq, Hash)]
pub struct MapAnswer {
    /// 0 when the call is granted, else the number of the refusal.
    pub refusal: u32,
    /// Of refusal 4 the node of the first bad cell, else 0.
    pub bad: u32,
    /// The width.
    pub w: u32,
    /// The height.
    pub h: u32,
    /// The depth.
    pub d: u32,
}

/// The number of a node.
#[repr(C)]
#[derive(Clone, Copy, Debug, PartialEq, Eq, Hash)]
pub struct NodeAnswer {
    /// 0 when the call is granted, else the number of the refusal.
    pub refusal: u32,
    /// The node's number.
    pub node: u32,
}

/// The place of a node.
#[repr(C)]
#[derive(Clone, Copy, Debug, PartialEq, Eq, Hash)]
pub struct PlaceAnswer {
    /// 0 when the call is granted, else the number of the refusal.
    pub refusal: u32,
    /// Its place along X.
    pub x: u32,
    /// Along Y.
    pub y: u32,
    /// Along Z.
    pub z: u32,
}

/// The next place in a direction, if there is one.
#[repr(C)]
#[derive(Clone, Copy, Debug, PartialEq, Eq, Hash)]
pub struct StepAnswer {
    /// 0 when the call is granted, else the number of the refusal.
    pub refusal: u32,
    /// 1 where there is a next place, 0 where the mesh ends.
    pub there: u32,
    /// Its place along X.
    pub x: u32,
    /// Along Y.
    pub y: u32,
    /// Along Z.
    pub z: u32,
}

impl Done {
    /// What was granted, or the refusal.
    pub fn result(self) -> Result<(), Refusal> {
        granted(self.refusal, self.bad)
    }
}

impl Counted {
    /// What was granted, or the refusal.
    pub fn result(self) -> Result<usize, Refusal> {
        granted(self.refusal, self.bad)?;
        Ok(self.count as usize)
    }
}

impl VerdictAnswer {
    /// What was granted, or the refusal.
    pub fn result(self) -> Result<Verdict, Refusal> {
        granted(self.refusal, self.bad)?;
        Ok(Verdict { hops: self.hops, offered: self.offered })
    }
}

impl MapAnswer {
    /// What was granted, or the refusal.
    pub fn result(self) -> Result<Sizes, Refusal> {
        granted(self.refusal, self.bad)?;
        Ok(Sizes { w: self.w, h: self.h, d: self.d })
    }
}

impl NodeAnswer {
    /// What was granted, or the refusal.
    pub fn result(self) -> Result<u32, Refusal> {
        granted(self.refusal, 0)?;
        Ok(self.node)
    }
}

impl PlaceAnswer {
    /// What was granted, or the refusal.
    pub fn result(self) -> Result<Place, Refusal> {
        granted(self.refusal, 0)?;
        Ok(Place { x: self.x, y: self.y, z: self.z })
    }
}

impl StepAnswer {
    /// What was granted, or the refusal.
    pub fn result(self) -> Result<Option<Place>, Refusal> {
        granted(self.refusal, 0)?;
        Ok(if self.there == 0 { None } else { Some(Place { x: self.x, y: self.y, z: self.z }) })
    }
}
