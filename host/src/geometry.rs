//! Vectors, spheres and tori.
use crate::ffi;
use std::ops::{Add, Sub};

#[derive(Debug, Clone, Copy, PartialEq)]
pub struct Vec3 {
    pub x: f64,
    pub y: f64,
    pub z: f64,
}

impl Vec3 {
    pub fn new(x: f64, y: f64, z: f64) -> Vec3 {
        Vec3 { x, y, z }
    }

    pub fn origin() -> Vec3 {
        Vec3::new(0.0, 0.0, 0.0)
    }

    pub fn dot(&self, rhs: &Vec3) -> f64 {
        self.x * rhs.x + self.y * rhs.y + self.z * rhs.z
    }

    pub fn scale(&self, factor: f64) -> Vec3 {
        Vec3::new(self.x * factor, self.y * factor, self.z * factor)
    }

    pub fn coordinates(&self) -> [f64; 3] {
        [self.x, self.y, self.z]
    }
}

impl Add for Vec3 {
    type Output = Vec3;

    fn add(self, rhs: Vec3) -> Vec3 {
        Vec3::new(self.x + rhs.x, self.y + rhs.y, self.z + rhs.z)
    }
}

impl Sub for Vec3 {
    type Output = Vec3;

    fn sub(self, rhs: Vec3) -> Vec3 {
        Vec3::new(self.x - rhs.x, self.y - rhs.y, self.z - rhs.z)
    }
}

#[derive(Debug, Clone, Copy, PartialEq)]
pub struct Sphere {
    pub centre: Vec3,
    pub radius: f64,
}

impl Sphere {
    pub fn new(centre: Vec3, radius: f64) -> Sphere {
        Sphere { centre, radius }
    }

    /// The distance of a point, by the library.
    pub fn eval(&self, x: f64, y: f64, z: f64) -> f64 {
        ffi::sphere(self.centre.coordinates(), self.radius, [x, y, z])
    }
}

/// A ring round the Y axis: `r` from the centre to the middle of the tube, `t` the tube's radius.
#[derive(Debug, Clone, Copy, PartialEq)]
pub struct Torus {
    pub centre: Vec3,
    pub r: f64,
    pub t: f64,
}

impl Torus {
    pub fn new(centre: Vec3, r: f64, t: f64) -> Torus {
        Torus { centre, r, t }
    }

    /// The distance of a point, by the library.
    pub fn eval(&self, x: f64, y: f64, z: f64) -> f64 {
        ffi::torus(self.centre.coordinates(), self.r, self.t, [x, y, z])
    }
}
