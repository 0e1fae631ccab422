//! The Rust source, unchanged, over a stand-in for glam's `Vec2` of the meaning that the scope gives it ("Floats").
use std::ops::{Add, Div, Mul, Sub};

extern crate self as glam;

include!(concat!(env!("OUT_DIR"), "/modules.rs"));

/// The larger of two floats: passes over a NaN, keeps the first of two equals.
fn larger(a: f32, b: f32) -> f32 {
    if a.is_nan() || b > a {
        b
    } else {
        a
    }
}

/// The smaller of two floats: passes over a NaN, keeps the first of two equals.
fn smaller(a: f32, b: f32) -> f32 {
    if a.is_nan() || b < a {
        b
    } else {
        a
    }
}

#[derive(Debug, Clone, Copy, PartialEq, Default)]
pub struct Vec2 {
    pub x: f32,
    pub y: f32,
}

impl Vec2 {
    pub const ZERO: Vec2 = Vec2 { x: 0.0, y: 0.0 };

    pub fn new(x: f32, y: f32) -> Self {
        Self { x, y }
    }
    pub fn splat(v: f32) -> Self {
        Self { x: v, y: v }
    }
    pub fn min(self, o: Self) -> Self {
        Self::new(smaller(self.x, o.x), smaller(self.y, o.y))
    }
    pub fn max(self, o: Self) -> Self {
        Self::new(larger(self.x, o.x), larger(self.y, o.y))
    }
    pub fn abs(self) -> Self {
        Self::new(self.x.abs(), self.y.abs())
    }
    pub fn max_element(self) -> f32 {
        larger(self.x, self.y)
    }
    pub fn is_finite(self) -> bool {
        self.x.is_finite() && self.y.is_finite()
    }
    pub fn is_nan(self) -> bool {
        self.x.is_nan() || self.y.is_nan()
    }
    pub fn perp_dot(self, o: Self) -> f32 {
        self.x * o.y - self.y * o.x
    }
    pub fn length(self) -> f32 {
        (self.x * self.x + self.y * self.y).sqrt()
    }
}

impl Add for Vec2 {
    type Output = Vec2;
    fn add(self, o: Self) -> Self {
        Self::new(self.x + o.x, self.y + o.y)
    }
}

impl Sub for Vec2 {
    type Output = Vec2;
    fn sub(self, o: Self) -> Self {
        Self::new(self.x - o.x, self.y - o.y)
    }
}

impl Mul<f32> for Vec2 {
    type Output = Vec2;
    fn mul(self, k: f32) -> Self {
        Self::new(self.x * k, self.y * k)
    }
}

impl Div<f32> for Vec2 {
    type Output = Vec2;
    fn div(self, k: f32) -> Self {
        Self::new(self.x / k, self.y / k)
    }
}

/// Whether `f32::max`, as this build has it, keeps the first of two equals, as the scope reads it: so unoptimised on x86-64.
pub fn keeps_first() -> bool {
    let mut b = path::PathBuilder::new();
    b.as_rounded_rect(path::Rect::new(Vec2::ZERO, Vec2::ZERO), std::hint::black_box(-0.0));
    b.build().as_rounded_rect().is_some_and(|(_, radius)| radius.is_sign_negative())
}
