//! Comparing a trial's lines with ours.

use std::collections::BTreeMap;
use std::io;

use crate::answer::{answer, call_name, Answer};
use crate::bytes::hex;
use crate::request::Request;
use crate::show::{show_request, slice_of_word};
use crate::shrink::shrink;
use crate::trial;

/// How many requests are tried by themselves before one is shown.
const MOST_CANDIDATES: usize = 8;

type Counts = BTreeMap<String, usize>;

/// What to print, and whether all is well.
pub struct Report {
    pub text: String,
    pub good: bool,
}

/// All is well if all lines are equal and no `expected` kind of answer is missing. `source` says how to make the stream
/// again.
pub fn compare(trial: &str, source: &str, requests: &[Request], expected: &[String]) -> io::Result<Report> {
    let theirs = trial::run(trial, requests)?;
    let ours: Vec<Answer> = requests.iter().map(answer).collect();
    let differing: Vec<usize> = (0..requests.len()).filter(|&at| theirs.line(at) != ours[at].line).collect();
    if let Some(&first) = differing.first() {
        let number = shortest_alone(trial, requests, &differing).unwrap_or(first);
        let difference = difference(trial, &requests[number], &ours[number].line, theirs.line(number))?;
        let others = format!("{} of {} differ, the first is {first}", differing.len(), requests.len());
        return Ok(Report {
            text: format!("{source}: request {number} differs ({others})\n{difference}"),
            good: false,
        });
    }
    let mut kinds = Counts::new();
    ours.into_iter().flat_map(|answer| answer.kinds).for_each(|kind| count(&mut kinds, kind));
    Ok(match theirs.fault(requests.len()) {
        Some(fault) => Report { text: format!("{source}: all lines equal, but {fault}\n"), good: false },
        None => summary(source, requests, &kinds, expected),
    })
}

/// Our line and the trial's for a request by itself.
fn lines_alone(trial: &str, request: &Request) -> io::Result<(String, String)> {
    let output = trial::run(trial, std::slice::from_ref(request))?;
    Ok((answer(request).line, output.line(0).to_string()))
}

fn differs_alone(trial: &str, request: &Request) -> bool {
    lines_alone(trial, request).is_ok_and(|(ours, theirs)| ours != theirs)
}

/// Of the shortest requests that differ, the first that also does so by itself. Where a trial ended early, all later
/// ones differ, so only a few are tried, and the first one that differed.
fn shortest_alone(trial: &str, requests: &[Request], differing: &[usize]) -> Option<usize> {
    let mut candidates = differing.to_vec();
    candidates.sort_by_key(|&number| requests[number].payload.len());
    candidates.truncate(MOST_CANDIDATES);
    candidates.extend(differing.first());
    candidates.into_iter().find(|&number| differs_alone(trial, &requests[number]))
}

fn difference(trial: &str, request: &Request, ours: &str, theirs: &str) -> io::Result<String> {
    if !differs_alone(trial, request) {
        let shown = show_difference(request, ours, theirs);
        return Ok(format!("it differs only within the stream, not alone\n{shown}"));
    }
    let shortest = shrink(request, |candidate| differs_alone(trial, candidate));
    let (ours, theirs) = lines_alone(trial, &shortest)?;
    let (from, to) = (request.payload.len(), shortest.payload.len());
    let left = shortest.payload.iter().filter(|&&byte| byte != 0).count();
    let shown = show_difference(&shortest, &ours, &theirs);
    Ok(format!("shortened from {from} to {to} payload bytes, {left} of them not 0\n{shown}"))
}

fn show_difference(request: &Request, ours: &str, theirs: &str) -> String {
    let call = call_name(request.op);
    let bytes = hex(&request.to_bytes());
    let (parting, slice) = (parting(ours, theirs), parting_slice(request.op, ours, theirs));
    let shown = show_request(request);
    format!(
        "call:    {call}\nrequest: {bytes}\n{shown}ours:    {ours}\ntheirs:  {theirs}\nthey part in {parting}{slice}\n"
    )
}

/// How many words are equal before the lines part.
fn same_words(ours: &str, theirs: &str) -> usize {
    ours.split(' ').zip(theirs.split(' ')).take_while(|(a, b)| a == b).count()
}

/// Which of a session's slices the word is where the lines part, if it is one.
fn parting_slice(op: u8, ours: &str, theirs: &str) -> String {
    let slice = slice_of_word(op, ours, same_words(ours, theirs));
    slice.map_or_else(String::new, |slice| format!(": {slice:?}"))
}

/// Where two lines part: long lines of buffers are hard to compare by eye.
pub fn parting(ours: &str, theirs: &str) -> String {
    let same_words = same_words(ours, theirs);
    let word = |line: &str| line.split(' ').nth(same_words).unwrap_or("").to_string();
    let same = word(ours).bytes().zip(word(theirs).bytes()).take_while(|(a, b)| a == b).count();
    format!("word {same_words}, character {same}, both from 0 (byte {} of a buffer)", same / 2)
}

fn summary(source: &str, requests: &[Request], kinds: &Counts, expected: &[String]) -> Report {
    let mut calls = Counts::new();
    requests.iter().for_each(|request| count(&mut calls, call_name(request.op).into()));
    let missing: Vec<&String> = expected.iter().filter(|kind| !kinds.contains_key(*kind)).collect();
    let text = [
        format!("{source}: {} requests, all lines equal\n", requests.len()),
        format!("requests:\n{}", show_counts(&calls)),
        format!("answers:\n{}", show_counts(kinds)),
        missing.iter().map(|kind| format!("never occurred: {kind}\n")).collect(),
    ]
    .concat();
    Report { text, good: missing.is_empty() }
}

fn count(counts: &mut Counts, name: String) {
    *counts.entry(name).or_insert(0) += 1;
}

fn show_counts(counts: &Counts) -> String {
    counts.iter().map(|(name, count)| format!("{count:8} {name}\n")).collect()
}
