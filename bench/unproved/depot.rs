// Replaces vox_depot's adapters over the files and the output of the system.
mod depot;
mod whole;

pub use depot::{Depot, FetchFault, Sink, SinkFault, StoreFault};
pub use whole::{LoadFault, load};

use std::fs::{self, File};
use std::io::{Read, Result as Done, Seek, SeekFrom, Write, stdout};
use std::os::unix::fs::MetadataExt;
use std::path::Path;

/// Copies from a place of the bytes on into the front of the buffer, as many as there are and it takes.
pub fn copy_piece(bytes: &[u8], from: u64, buf: &mut [u8]) -> usize {
    let rest = bytes.get(from as usize..).unwrap_or(&[]);
    let count = rest.len().min(buf.len());
    buf[..count].copy_from_slice(&rest[..count]);
    count
}

/// The files of the system, by their paths. The last one that was read stays open.
#[derive(Default)]
pub struct HostDepot {
    last: Option<(std::string::String, File, u64)>,
}

impl HostDepot {
    fn read(&mut self, name: &str, from: u64, buf: &mut [u8]) -> Done<usize> {
        let mut file = match self.last.take() {
            Some((last, file, at)) if from > 0 && last == name && at == from => file,
            _ => {
                let mut file = File::open(name)?;
                if from > 0 {
                    file.seek(SeekFrom::Start(from))?;
                }
                file
            }
        };
        let count = file.read(buf)?;
        self.last = Some((name.into(), file, from + count as u64));
        Ok(count)
    }
}

/// Writes the bytes beside the file and renames them, if the name is free or the only one of a regular file; else in place.
fn store_whole(name: &str, bytes: &[u8]) -> Done<()> {
    let path = Path::new(name);
    if !fs::symlink_metadata(path).map_or(true, |old| old.is_file() && old.nlink() < 2) {
        return fs::write(path, bytes);
    }
    let beside = path.with_file_name(format!(".nanobot-{}", std::process::id()));
    let stored = fs::write(&beside, bytes).and_then(|()| fs::rename(&beside, path));
    if stored.is_err() {
        let _ = fs::remove_file(&beside);
    }
    stored
}

impl Depot for HostDepot {
    fn fetch(&mut self, name: &str, from: u64, buf: &mut [u8]) -> Result<usize, FetchFault> {
        self.read(name, from, buf).map_err(|_| FetchFault::Failed)
    }

    fn store(&mut self, name: &str, bytes: &[u8]) -> Result<(), StoreFault> {
        self.last = None;
        store_whole(name, bytes).map_err(|_| StoreFault)
    }
}

/// Standard output.
pub struct HostSink;

impl Sink for HostSink {
    fn put(&mut self, bytes: &[u8]) -> Result<(), SinkFault> {
        let mut out = stdout();
        out.write_all(bytes).and_then(|()| out.flush()).map_err(|_| SinkFault)
    }
}
