//! Copies of runs, for nothing but their cost.
use crate::types::Run;
use std::hint::black_box;

const SIZE: usize = std::mem::size_of::<Run>();

/// So many bytes, copied on from buffer to buffer, each of the size of a run.
pub struct Copies {
    bytes: usize,
    buffers: Vec<[u8; SIZE]>,
}

impl Copies {
    pub fn of(bytes: usize) -> Copies {
        Copies {
            bytes,
            buffers: vec![[0; SIZE]; bytes.div_ceil(SIZE) + 1],
        }
    }

    pub fn make(&mut self) {
        let mut left = self.bytes;
        for k in 1..self.buffers.len() {
            let n = left.min(SIZE);
            let (before, after) = self.buffers.split_at_mut(k);
            after[0][..n].copy_from_slice(&black_box(&before[k - 1])[..n]);
            left -= n;
        }
        black_box(&self.buffers);
    }
}
