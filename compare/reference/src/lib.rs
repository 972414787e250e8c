#![allow(warnings)]
pub mod coord;
pub mod data;
