//! Stands in for the evaluator's `obj`: the shape of an object whose fields are all known, data only.

use jrsonnet_interner::IStr;
use jrsonnet_ir::{Span, Visibility};

use ordering::FieldIndex;

#[derive(Clone, Copy, Debug)]
pub struct ObjFieldFlags {
    pub plus: bool,
    pub visibility: Visibility,
}

impl ObjFieldFlags {
    pub fn new(plus: bool, visibility: Visibility) -> ObjFieldFlags {
        ObjFieldFlags { plus, visibility }
    }
}

#[derive(Debug)]
pub struct ShapeField {
    pub name: IStr,
    pub flags: ObjFieldFlags,
    pub location: Option<Span>,
    pub index: FieldIndex,
}

#[derive(Debug)]
pub struct ObjShape {
    pub fields: Vec<ShapeField>,
}

impl ObjShape {
    pub fn new(fields: Vec<ShapeField>) -> ObjShape {
        ObjShape { fields }
    }
}

pub mod ordering {
    #[derive(Clone, Copy, Debug, Default)]
    pub struct FieldIndex(u32);

    impl FieldIndex {
        pub fn next(self) -> FieldIndex {
            FieldIndex(self.0 + 1)
        }
    }
}
