//! A collector's loop: takes one image after another, each of the slot after the last one's, settles it and prints its lines.
//!
//!   collector SLOT DIRECTORY    the images DIRECTORY/SLOT.image, then those of SLOT + 1, SLOT + 2 .. until there is none
//!   collector SLOT -            images one after the other on standard input
//!
//! On a site the loop is the same, and each image is what a switch sent for the 10 ms that ended. A refused image is told on standard error and its slot
//! left out; the loop goes on. Exit status: 0 every image was printed, 1 one was refused, 2 used wrongly, or nothing could be read or written.

use std::io::{self, Read, Write};
use std::process::ExitCode;

use elderflute::{Lent, Refusal, Sizes, LINES};

/// Room for an image of any sizes, made once: no call allocates, and each is lent as much as the image's sizes ask for.
struct Room {
    filter: Vec<u8>,
    xors: Vec<u8>,
    flows: Vec<u16>,
    packets: Vec<u32>,
    unknowns: Vec<u16>,
    positions: Vec<u16>,
    marks: Vec<u64>,
    keys: Vec<u8>,
    counts: Vec<u32>,
    flags: Vec<u8>,
    lines: Vec<u8>,
}

impl Room {
    fn new() -> Self {
        let most = Sizes { kf: 8, f: 16, k: 4, q: 16 };
        let n = most.cells();
        Room {
            filter: vec![0; most.filter_bytes()],
            xors: vec![0; 13 * n],
            flows: vec![0; n],
            packets: vec![0; n],
            unknowns: vec![0; n],
            positions: vec![0; n],
            marks: vec![0; n.div_ceil(64)],
            keys: vec![0; 26 * n],
            counts: vec![0; 2 * n],
            flags: vec![0; 2 * n],
            lines: vec![0; LINES],
        }
    }

    /// What the loop does with one image: read, open, settle, and use what stands there; here it is given as lines.
    fn take(&mut self, image: &[u8], slot: u32) -> Result<&[u8], Refusal> {
        let sizes = elderflute::read(image, slot).map_err(|bad| bad.refusal)?.sizes;
        let n = sizes.cells();
        let lent = &mut Lent {
            filter: &mut self.filter[..sizes.filter_bytes()],
            xors: &mut self.xors[..13 * n],
            flows: &mut self.flows[..n],
            packets: &mut self.packets[..n],
            unknowns: &mut self.unknowns[..n],
            positions: &mut self.positions[..n],
            marks: &mut self.marks[..n.div_ceil(64)],
            keys: &mut self.keys[..26 * n],
            counts: &mut self.counts[..2 * n],
            flags: &mut self.flags[..2 * n],
        };
        let mut session = elderflute::open(image, slot, lent).map_err(|bad| bad.refusal)?;
        session.settle(lent).map_err(|stopped| stopped.refusal)?;
        let written = session.lines(lent, &mut self.lines)?;
        Ok(&self.lines[..written])
    }
}

/// The bytes of the next image on standard input: block 0 says how many blocks there are (F, k and q are its bytes 2 to 4). Where those bytes are damaged,
/// the stream is lost from there on: on a site, send the length too.
fn next_image() -> io::Result<Vec<u8>> {
    let mut image = Vec::new();
    io::stdin().lock().take(512).read_to_end(&mut image)?;
    if image.len() == 512 {
        let sizes = Sizes { kf: 1, f: image[2].into(), k: image[3].into(), q: image[4].into() };
        let more = sizes.image_bytes().saturating_sub(512);
        if more <= 40_448 {
            io::stdin().lock().take(more as u64).read_to_end(&mut image)?;
        }
    }
    Ok(image)
}

/// The bytes of a slot's image in a directory; none where there is no such file.
fn slot_image(directory: &str, slot: u32) -> io::Result<Vec<u8>> {
    match std::fs::read(format!("{directory}/{slot}.image")) {
        Err(error) if error.kind() == io::ErrorKind::NotFound => Ok(Vec::new()),
        read => read,
    }
}

/// Whether every image was printed.
fn collect(first: u32, from: &str) -> io::Result<bool> {
    let (mut room, mut slot, mut all, mut out) = (Room::new(), first, true, io::stdout().lock());
    loop {
        let image = if from == "-" { next_image()? } else { slot_image(from, slot)? };
        if image.is_empty() {
            break;
        }
        match room.take(&image, slot) {
            Ok(lines) => out.write_all(lines)?,
            Err(refusal) => {
                eprintln!("collector: slot {slot}: {} ({})", refusal.words(), refusal.number());
                all = false;
            }
        }
        slot = slot.wrapping_add(1);
    }
    out.flush()?;
    if slot == first {
        return Err(io::Error::other(format!("there is no image of slot {first} in '{from}'")));
    }
    Ok(all)
}

fn main() -> ExitCode {
    let arguments: Vec<String> = std::env::args().collect();
    let Some((slot, from)) = (match &arguments[..] {
        [_, slot, from] => slot.parse().ok().map(|slot: u32| (slot, from)),
        _ => None,
    }) else {
        eprintln!("usage: collector SLOT DIRECTORY | collector SLOT -");
        return ExitCode::from(2);
    };
    if elderflute::version() != elderflute::VERSION_NUMBER {
        eprintln!("collector: the library is not of version {}", elderflute::VERSION);
        return ExitCode::from(2);
    }
    match collect(slot, from) {
        Ok(true) => ExitCode::SUCCESS,
        Ok(false) => ExitCode::from(1),
        Err(error) => {
            eprintln!("collector: {error}");
            ExitCode::from(2)
        }
    }
}
