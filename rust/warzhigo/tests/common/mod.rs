//! What the tests of this folder share. Each of them uses a part of it only.
#![allow(dead_code)]

pub mod building;
pub mod bytes_model;
pub mod call;
pub mod converter_model;
pub mod copying;
pub mod defined;
pub mod document;
pub mod extents_model;
pub mod instance;
pub mod journal;
pub mod layout;
pub mod marked;
pub mod numbers;
pub mod offered;
pub mod picture;
pub mod plan;
pub mod premise;
pub mod question;
pub mod shape;
pub mod sketch;
pub mod twin;
pub mod walk;
