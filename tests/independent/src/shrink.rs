//! Finding a short request that still shows a difference.

use crate::layout::BLOCK_BYTES;
use crate::request::{Request, Run, ENCODER, EXCHANGE, OPEN, PRINT, READ, READ_HEAD, SEQUENCE};
use crate::sequence::{parse_sequence, sequence_request, PRINT_HEAD};

/// For requests on sessions: each try runs the program anew.
const MOST_TRIES: usize = 600;

/// Drops pieces as long as the lines still differ: packets and then their bytes, an image's blocks, else single bytes.
pub fn shrink(request: &Request, mut differs: impl FnMut(&Request) -> bool) -> Request {
    if request.op == ENCODER {
        if let Some(run) = Run::parse(&request.payload) {
            return shrink_run(run, &mut differs);
        }
    }
    if request.op == SEQUENCE {
        if let Some((session, steps)) = parse_sequence(&request.payload) {
            let kept = drop_in_rounds(steps, |steps| differs(&sequence_request(&session, steps)));
            return zero_in_rounds(&sequence_request(&session, &kept), &mut differs);
        }
    }
    if (OPEN..=EXCHANGE).contains(&request.op) {
        return zero_in_rounds(request, &mut differs);
    }
    let (head, pieces) = pieces_of(request);
    let rebuilt = |pieces: &[&[u8]]| Request::new(request.op, [head, &pieces.concat()].concat());
    let kept = drop_in_rounds(pieces, |pieces| differs(&rebuilt(pieces)));
    rebuilt(&kept)
}

fn shrink_run(mut run: Run, differs: &mut impl FnMut(&Request) -> bool) -> Request {
    let with = |packets: &[Vec<u8>]| Run { packets: packets.to_vec(), ..run.clone() }.to_request();
    let mut packets = drop_in_rounds(run.packets.clone(), |packets| differs(&with(packets)));
    for number in 0..packets.len() {
        packets[number] = drop_in_rounds(packets[number].clone(), |bytes| {
            let mut candidate = packets.clone();
            candidate[number] = bytes.to_vec();
            differs(&with(&candidate))
        });
    }
    run.packets = packets;
    run.to_request()
}

/// A session without some of its bytes only ever has a wrong length, so they become 0 instead: runs of them, from the
/// whole payload down to single ones.
fn zero_in_rounds(request: &Request, differs: &mut impl FnMut(&Request) -> bool) -> Request {
    let mut shortest = request.clone();
    let mut tries = MOST_TRIES;
    let mut width = request.payload.len();
    while width > 0 {
        for at in (0..request.payload.len()).step_by(width) {
            let mut candidate = shortest.clone();
            let end = (at + width).min(candidate.payload.len());
            candidate.payload[at..end].fill(0);
            if candidate == shortest {
                continue;
            }
            if tries == 0 {
                return shortest;
            }
            tries -= 1;
            if differs(&candidate) {
                shortest = candidate;
            }
        }
        width /= 2;
    }
    shortest
}

/// What must stay, and what may go. A torn block only ever makes a wrong length, so whole blocks go.
fn pieces_of(request: &Request) -> (&[u8], Vec<&[u8]>) {
    let payload = request.payload.as_slice();
    let head_bytes = match request.op {
        READ => READ_HEAD,
        PRINT => PRINT_HEAD,
        _ => usize::MAX,
    };
    let Some((head, image)) = payload.split_at_checked(head_bytes) else {
        return (&[], payload.chunks(1).collect());
    };
    let blocks = image.chunks_exact(BLOCK_BYTES);
    let rest = blocks.remainder();
    (head, blocks.chain(rest.chunks(1)).collect())
}

/// Tries to drop runs of pieces, from all of them down to single ones, until no single piece can go.
fn drop_in_rounds<T: Clone>(mut pieces: Vec<T>, mut differs: impl FnMut(&[T]) -> bool) -> Vec<T> {
    let mut width = pieces.len();
    while width > 0 {
        let before = pieces.len();
        let mut at = 0;
        while at < pieces.len() {
            let end = (at + width).min(pieces.len());
            let candidate = [&pieces[..at], &pieces[end..]].concat();
            if differs(&candidate) {
                pieces = candidate;
            } else {
                at = end;
            }
        }
        if width > 1 || pieces.len() == before {
            width /= 2;
        }
    }
    pieces
}
