//! The printing program on many inputs, each a run of its own, beside this program's `print`.

use std::collections::BTreeMap;
use std::fs;
use std::io::{self, Read, Write};
use std::process::{Command, Stdio};
use std::thread;

use crate::expected::PRINTED;
use crate::image::Header;
use crate::inspection::{self, MISSING};
use crate::layout::KEY_BYTES;
use crate::print::print;
use crate::sizes::Sizes;
use crate::working::Encoder;

/// From so many inputs on, nothing that can be printed may be missing.
const LONG_ENOUGH: usize = 200;

/// Compares; where some differ, the shortest is kept in a file for `program` and `independent print` to be run on.
pub fn compare(program: &str, seed: u64, inputs: &[Vec<u8>], kept: &str) -> io::Result<bool> {
    let mut kinds: BTreeMap<String, usize> = BTreeMap::new();
    let mut shortest: Option<(&Vec<u8>, String, String)> = None;
    let mut differing = 0;
    for input in inputs {
        let (printed, wanted) = (run(program, input)?, print(input));
        *kinds.entry(kind(&wanted)).or_default() += 1;
        if printed != wanted {
            differing += 1;
            if shortest.as_ref().is_none_or(|(other, ..)| input.len() < other.len()) {
                shortest = Some((input, printed, wanted));
            }
        }
    }
    println!("printing, seed {seed}: {} inputs, {differing} differ", inputs.len());
    for (kind, number) in &kinds {
        println!("  {kind}: {number}");
    }
    if let Some((input, printed, wanted)) = shortest {
        fs::write(kept, input)?;
        println!("the shortest that differs has {} bytes and is in {kept}", input.len());
        println!("printed:\n{printed}wanted:\n{wanted}");
    }
    let missing: Vec<&str> =
        PRINTED.into_iter().filter(|kind| inputs.len() >= LONG_ENOUGH && !kinds.contains_key(*kind)).collect();
    for kind in &missing {
        println!("never printed: {kind}");
    }
    Ok(differing == 0 && missing.is_empty())
}

/// The state of a report, or the refusal.
pub fn kind(text: &str) -> String {
    let first = text.lines().next().unwrap_or("");
    if first.starts_with("refused") {
        first.into()
    } else {
        first.rsplit(' ').next().unwrap_or("").into()
    }
}

fn run(program: &str, input: &[u8]) -> io::Result<String> {
    let mut child = Command::new(program).stdin(Stdio::piped()).stdout(Stdio::piped()).spawn()?;
    let mut stdin = child.stdin.take().expect("stdin is piped");
    let bytes = input.to_vec();
    // A program may end before it has read all: that is no error here.
    let writer = thread::spawn(move || drop(stdin.write_all(&bytes)));
    let mut output = Vec::new();
    child.stdout.take().expect("stdout is piped").read_to_end(&mut output)?;
    let status = child.wait()?;
    writer.join().expect("the writer does not panic");
    let text = String::from_utf8_lossy(&output).into_owned();
    Ok(if status.success() { text } else { format!("{text}(ended with {status})\n") })
}

/// Inputs and what is printed of them, for the gate: the shortest of each kind among `inputs`, the edges of 01, and what is
/// left over: packets of a missed flow, or one byte of FlowXOR in the last cell.
pub fn store(folder: &str, inputs: &[Vec<u8>]) -> io::Result<()> {
    let mut stored: BTreeMap<String, Vec<u8>> = BTreeMap::new();
    for input in inputs {
        let name = kind(&print(input)).replace(' ', "-");
        let shorter = stored.get(&name).is_none_or(|other| input.len() < other.len());
        if shorter {
            stored.insert(name, input.clone());
        }
    }
    let sealed = |sizes| Encoder::new(Header { sizes, salt: 9, slot: 7 }).sealed();
    let wanted = |image: &[u8]| [&7u32.to_be_bytes()[..], image].concat();
    let largest = wanted(&sealed(Sizes { kf: 8, f: 16, k: 4, q: 16 }));
    stored.insert("empty".into(), wanted(&sealed(Sizes::SMALLEST)));
    let mut byte_left = Encoder::new(Header { sizes: Sizes::SMALLEST, salt: 9, slot: 7 });
    byte_left.cell(47)[KEY_BYTES - 1] = 1;
    stored.insert("stray".into(), wanted(&inspection::encoded(MISSING, &inspection::flows()).sealed()));
    stored.insert("stray-xor".into(), wanted(&byte_left.sealed()));
    stored.insert("slot-cut".into(), vec![0, 0, 7]);
    stored.insert("no-image".into(), wanted(&[]));
    stored.insert("longest".into(), largest.clone());
    stored.insert("one-block-more".into(), [largest, vec![0; 512]].concat());
    fs::create_dir_all(folder)?;
    for (name, input) in stored {
        fs::write(format!("{folder}/{name}.in"), &input)?;
        fs::write(format!("{folder}/{name}.out"), print(&input))?;
    }
    Ok(())
}
