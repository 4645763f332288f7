//! Parameters: their names and types, and the data that is set and read.
use crate::geometry::Vec3;
use crate::layout::bits;
use std::fmt::{self, Display, Formatter};

#[derive(Debug, Clone, Copy, PartialEq)]
pub enum Data {
    Value(f64),
    Vec3(Vec3),
    Boolean(bool),
}

#[derive(Debug, Clone, Copy, PartialEq, Eq)]
pub enum DataType {
    Value,
    Vec3,
}

/// A parameter that a kind of component has.
#[derive(Debug, Clone, PartialEq, Eq)]
pub struct Parameter {
    pub name: String,
    pub data_type: DataType,
}

/// Data as it crosses the boundary.
#[derive(Debug, Clone, Copy, PartialEq, Eq)]
pub struct DataRow {
    pub kind: u64,
    pub numbers: [u64; 3],
}

impl Data {
    pub fn row(&self) -> DataRow {
        match *self {
            Data::Value(v) => DataRow { kind: 0, numbers: [bits(v), 0, 0] },
            Data::Vec3(v) => DataRow { kind: 1, numbers: v.coordinates().map(bits) },
            Data::Boolean(b) => DataRow { kind: 2, numbers: [b.into(), 0, 0] },
        }
    }

    /// The data that a reading reports; none where there is no such parameter.
    pub fn read(reported: u64, numbers: [u64; 3]) -> Option<Data> {
        let [x, y, z] = numbers.map(f64::from_bits);
        match DataType::reported(reported)? {
            DataType::Value => Some(Data::Value(x)),
            DataType::Vec3 => Some(Data::Vec3(Vec3::new(x, y, z))),
        }
    }
}

impl Display for Data {
    fn fmt(&self, f: &mut Formatter) -> fmt::Result {
        match self {
            Data::Value(value) => write!(f, "{value}"),
            Data::Vec3(v) => write!(f, "({}, {}, {})", v.x, v.y, v.z),
            Data::Boolean(b) => write!(f, "{b}"),
        }
    }
}

impl DataType {
    /// 1 is a value and 2 a vec3, in what the library reports.
    pub fn reported(number: u64) -> Option<DataType> {
        match number {
            1 => Some(DataType::Value),
            2 => Some(DataType::Vec3),
            _ => None,
        }
    }
}
