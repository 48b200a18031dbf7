//! Requests in files, one each: the op, and the payload. A fuzzer takes them as seeds, and leaves others.

use std::fs;
use std::io;
use std::path::{Path, PathBuf};

use crate::request::Request;

/// In the order of the files' names.
pub fn read(folder: &str) -> io::Result<Vec<Request>> {
    let mut paths: Vec<PathBuf> = fs::read_dir(folder)?.map(|entry| Ok(entry?.path())).collect::<io::Result<_>>()?;
    paths.sort();
    let mut requests = Vec::new();
    for path in paths {
        let bytes = fs::read(path)?;
        requests.extend(bytes.split_first().map(|(&op, payload)| Request::new(op, payload)));
    }
    Ok(requests)
}

pub fn store(folder: &str, requests: &[Request]) -> io::Result<()> {
    fs::create_dir_all(folder)?;
    for (number, request) in requests.iter().enumerate() {
        let bytes = [&[request.op], request.payload.as_slice()].concat();
        fs::write(Path::new(folder).join(format!("{number:05}")), bytes)?;
    }
    Ok(())
}
