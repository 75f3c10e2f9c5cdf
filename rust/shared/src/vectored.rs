//! Reads and writes of several buffers, each by one call. The kernel takes one buffer, so the bytes of several are in a row meanwhile.

use super::calls::cut;
use super::descriptor::Descriptor;
use std::io::{self, IoSlice, IoSliceMut, Write};

/// A row of so many bytes takes no memory. No write of more goes into a pipe whole (`PIPE_BUF`).
const SMALL: usize = 4_096;

/// How many bytes a call of buffers of so many each looks at.
fn total(sizes: impl Iterator<Item = usize>) -> usize {
    cut(sizes.fold(0, usize::saturating_add))
}

/// A list that has room for so many bytes.
fn room_for(size: usize) -> io::Result<Vec<u8>> {
    let mut row = Vec::new();
    row.try_reserve_exact(size)
        .map_err(|_| io::ErrorKind::OutOfMemory)?;
    Ok(row)
}

/// Copies the bytes of a row to the buffers, of which each is filled before the next one.
fn scatter(mut row: &[u8], buffers: &mut [IoSliceMut<'_>]) {
    for buffer in buffers {
        let (part, rest) = row.split_at(row.len().min(buffer.len()));
        buffer[..part.len()].copy_from_slice(part);
        row = rest;
    }
}

impl Descriptor {
    pub(super) fn read_vectored(&self, buffers: &mut [IoSliceMut<'_>]) -> io::Result<usize> {
        let total = total(buffers.iter().map(|buffer| buffer.len()));
        let first = buffers.iter_mut().find(|buffer| !buffer.is_empty());
        if let Some(all) = first.filter(|first| first.len() >= total) {
            return self.read(all);
        }
        let (mut small, mut large);
        let row = if total <= SMALL {
            small = [0; SMALL];
            &mut small[..total]
        } else {
            large = room_for(total)?;
            large.resize(total, 0);
            &mut large[..]
        };
        let count = self.read(row)?;
        scatter(&row[..count], buffers);
        Ok(count)
    }

    pub(super) fn write_vectored(&self, buffers: &[IoSlice<'_>]) -> io::Result<usize> {
        let total = total(buffers.iter().map(|buffer| buffer.len()));
        let first = buffers.iter().find(|buffer| !buffer.is_empty());
        if let Some(all) = first.filter(|first| first.len() >= total) {
            return self.write(all);
        }
        let (mut small, mut large);
        let row = if total <= SMALL {
            small = [0; SMALL];
            let mut room = &mut small[..];
            for buffer in buffers {
                room.write_all(buffer)?;
            }
            &small[..total]
        } else {
            large = room_for(total)?;
            for buffer in buffers {
                let left = total - large.len();
                large.extend_from_slice(&buffer[..buffer.len().min(left)]);
            }
            &large[..]
        };
        self.write(row)
    }
}
