//! An independent program for document 01: hashing, encoder, image, session, exchange and printing. It answers the
//! streams of the programs under test, makes such streams, and compares a program's lines with its own.

mod answer;
mod bytes;
mod chart;
mod compare;
mod compare_printing;
mod counters;
mod edges;
mod encoder;
mod engine;
mod exchange;
mod expected;
mod files;
mod flow;
mod flowsets;
mod fresh;
mod generate;
mod hash;
mod image;
mod index;
mod inspection;
mod ipv4;
mod key;
mod layout;
mod lent;
mod lent_session;
mod marked;
mod measures;
mod memory;
mod places;
mod plot;
mod print;
mod random;
mod refusal;
mod report;
mod request;
mod rescanning;
mod selftest;
mod sequence;
mod session;
mod session_answer;
mod session_request;
mod session_tests;
mod settle;
mod show;
mod shrink;
mod sizes;
mod sizing;
mod table;
mod trial;
mod words;
mod working;

use std::io::{self, Read, Write};
use std::process::ExitCode;

use expected::{expected_call_kinds, expected_kinds, expected_session_kinds};
use request::Request;

const USAGE: &str = "usage: independent answer < REQUESTS
       independent requests SEED COUNT
       independent edges
       independent compare TRIAL SEED COUNT
       independent compare TRIAL edges
       independent session-requests SEED COUNT
       independent compare-sessions CALLS SEED COUNT
       independent compare-calls CALLS SEED COUNT
       independent compare-files CALLS FOLDER
       independent store-calls FOLDER SEED COUNT
       independent compare-printing REPORT SEED COUNT
       independent printing-input SEED NUMBER
       independent store-printing FOLDER
       independent print < SLOT_AND_IMAGE
       independent sizing SEED RUNS [PLOT.svg]
       independent measure loads|salts|sharing|missed|sizes SEED RUNS
       independent selftest";

/// From so many requests on sessions on, no answer may be missing.
const LONG_ENOUGH: usize = 400;
/// The same for requests on the library's calls.
const LONG_ENOUGH_FOR_CALLS: u64 = 1_000;

fn main() -> ExitCode {
    let arguments: Vec<String> = std::env::args().skip(1).collect();
    let words: Vec<&str> = arguments.iter().map(String::as_str).collect();
    match run(&words) {
        Ok(true) => ExitCode::SUCCESS,
        Ok(false) => ExitCode::FAILURE,
        Err(error) => {
            eprintln!("independent: {error}");
            ExitCode::FAILURE
        }
    }
}

fn run(words: &[&str]) -> io::Result<bool> {
    match *words {
        ["answer"] => answer_stream().map(|()| true),
        ["requests", seed, count] => {
            let requests = generate::requests(number(seed)?, number(count)? as usize);
            print_stream(&requests).map(|()| true)
        }
        ["edges"] => print_stream(&edges::requests()).map(|()| true),
        ["session-requests", seed, count] => {
            let requests = generate::session_requests(number(seed)?, number(count)? as usize);
            print_stream(&requests).map(|()| true)
        }
        ["compare", trial, "edges"] => print_comparison(trial, "edges", &edges::requests(), &expected_kinds()),
        ["compare", trial, seed, count] => {
            let requests = generate::requests(number(seed)?, number(count)? as usize);
            print_comparison(trial, &format!("seed {seed} count {count}"), &requests, &expected_kinds())
        }
        ["compare-sessions", program, seed, count] => {
            let requests = generate::session_requests(number(seed)?, number(count)? as usize);
            let expected = if requests.len() < LONG_ENOUGH { Vec::new() } else { expected_session_kinds() };
            print_comparison(program, &format!("sessions, seed {seed} count {count}"), &requests, &expected)
        }
        ["compare-calls", program, seed, count] => {
            let requests = generate::calls::call_requests(number(seed)?, number(count)? as usize);
            let expected = if number(count)? < LONG_ENOUGH_FOR_CALLS { Vec::new() } else { expected_call_kinds() };
            print_comparison(program, &format!("calls, seed {seed} count {count}"), &requests, &expected)
        }
        ["compare-files", program, folder] => {
            print_comparison(program, &format!("files of {folder}"), &files::read(folder)?, &[])
        }
        ["store-calls", folder, seed, count] => {
            files::store(folder, &generate::calls::call_requests(number(seed)?, number(count)? as usize)).map(|()| true)
        }
        ["compare-printing", program, seed, count] => {
            let inputs = generate::printing_inputs(number(seed)?, number(count)? as usize);
            compare_printing::compare(program, number(seed)?, &inputs, "target/tests/printing-differs")
        }
        ["store-printing", folder] => compare_printing::store(folder, &generate::printing_inputs(1, 400)).map(|()| true),
        ["printing-input", seed, which] => {
            let which = number(which)? as usize;
            let inputs = generate::printing_inputs(number(seed)?, which + 1);
            io::stdout().lock().write_all(&inputs[which]).map(|()| true)
        }
        ["print"] => print_flows().map(|()| true),
        ["sizing", seed, runs] => print_sizing(number(seed)?, number(runs)?, None),
        ["sizing", seed, runs, path] => print_sizing(number(seed)?, number(runs)?, Some(path)),
        ["measure", what, seed, runs] => {
            let text = measures::measure(what, number(seed)?, number(runs)?.max(1) as usize);
            let text = text.ok_or_else(|| io::Error::other(USAGE))?;
            io::stdout().lock().write_all(text.as_bytes()).map(|()| true)
        }
        ["selftest"] => Ok(selftest::selftest()),
        _ => Err(io::Error::other(USAGE)),
    }
}

/// Prints the figures, and draws the decode rates among them where a file is named.
fn print_sizing(seed: u64, runs: u64, path: Option<&str>) -> io::Result<bool> {
    let runs = runs.max(1) as usize;
    let (text, decoded) = sizing::sizing(seed, runs);
    if let Some(path) = path {
        std::fs::write(path, plot::decode_plot(seed, runs, &decoded))?;
    }
    io::stdout().lock().write_all(text.as_bytes()).map(|()| true)
}

fn number(word: &str) -> io::Result<u64> {
    word.parse().map_err(|_| io::Error::other(format!("not a number: {word}")))
}

fn print_stream(requests: &[Request]) -> io::Result<()> {
    request::write_stream(requests, &mut io::stdout().lock())
}

fn print_comparison(trial: &str, source: &str, requests: &[Request], expected: &[String]) -> io::Result<bool> {
    let report = compare::compare(trial, source, requests, expected)?;
    io::stdout().lock().write_all(report.text.as_bytes())?;
    Ok(report.good)
}

fn answer_stream() -> io::Result<()> {
    let mut stream = Vec::new();
    io::stdin().lock().read_to_end(&mut stream)?;
    let requests =
        request::parse_stream(&stream).ok_or_else(|| io::Error::other("the stream ends inside a request"))?;
    let mut out = io::BufWriter::new(io::stdout().lock());
    for request in &requests {
        writeln!(out, "{}", answer::answer(request).line)?;
    }
    out.flush()
}

fn print_flows() -> io::Result<()> {
    let mut input = Vec::new();
    io::stdin().lock().read_to_end(&mut input)?;
    io::stdout().lock().write_all(print::print(&input).as_bytes())
}
