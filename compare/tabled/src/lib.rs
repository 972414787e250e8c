#![allow(warnings)]
pub mod coord;
pub mod data;
pub mod powers;
