//! The original: scalefx.rs as it stands, compiled from where it lies, and a copy of it whose private stages are exposed.

mod found {
    include!(concat!(env!("OUT_DIR"), "/original.rs"));
}

pub use found::scalefx::{scale, scale9x};
pub use found::scalefx_stages::stages::{distance, stages, Stages};
