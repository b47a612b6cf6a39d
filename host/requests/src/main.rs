//! `requests`: makes requests, runs a program on them, or compares two programs' answers.

#![forbid(unsafe_code)]

use reference::protocol::request::Request;
use reference::protocol::BAD_REQUEST;
use requests::claims::Claims;
use requests::generator::{Area, Generator};
use requests::programs::{ask, Answers};
use requests::shortening::shorten;
use requests::tally::Tally;
use std::io::{self, BufWriter, Write};
use std::iter::Take;
use std::process::ExitCode;

const USAGE: &str = "requests make SEED COUNT [AREA]
requests run PROGRAM SEED COUNT [AREA]
requests compare PROGRAM OTHER SEED COUNT [AREA]
AREA: collect, receive, read, judge, modem, list, write or all (the default)";

/// Which requests: `SEED COUNT [AREA]`.
#[derive(Clone, Copy)]
struct Choice {
    seed: u64,
    count: usize,
    area: Area,
}

impl Choice {
    fn parse(words: &[&str]) -> Option<Choice> {
        let (seed, count, area) = match words {
            [seed, count] => (seed, count, "all"),
            [seed, count, area] => (seed, count, *area),
            _ => return None,
        };
        Some(Choice {
            seed: seed.parse().ok()?,
            count: count.parse().ok()?,
            area: Area::named(area)?,
        })
    }

    fn requests(self) -> Take<Generator> {
        Generator::new(self.seed, self.area).take(self.count)
    }
}

fn main() -> ExitCode {
    let words: Vec<String> = std::env::args().skip(1).collect();
    let words: Vec<&str> = words.iter().map(String::as_str).collect();
    let done = match words[..] {
        ["make", ref rest @ ..] => Choice::parse(rest).map(make),
        ["run", program, ref rest @ ..] => Choice::parse(rest).map(|choice| run(program, choice)),
        ["compare", program, other, ref rest @ ..] => {
            Choice::parse(rest).map(|choice| compare([program, other], choice))
        }
        _ => None,
    };
    match done {
        None => fail(2, USAGE),
        Some(Err(error)) => fail(2, &format!("requests: {error}")),
        Some(Ok(true)) => ExitCode::SUCCESS,
        Some(Ok(false)) => ExitCode::FAILURE,
    }
}

fn fail(status: u8, words: &str) -> ExitCode {
    eprintln!("{words}");
    ExitCode::from(status)
}

fn make(choice: Choice) -> io::Result<bool> {
    let mut output = BufWriter::new(io::stdout().lock());
    for request in choice.requests() {
        writeln!(output, "{request}")?;
    }
    output.flush()?;
    Ok(true)
}

/// Runs one program: an answer to each request, none of them `bad request` or against a claim, and a good
/// end.
fn run(program: &str, choice: Choice) -> io::Result<bool> {
    let mut answers = ask(program, choice.requests())?;
    let (mut tally, mut claims) = (Tally::default(), Claims::default());
    for (index, request) in choice.requests().enumerate() {
        let answer = answers.next();
        match answer.as_deref() {
            None => return wrong(program, index, &request, "no answer"),
            Some(BAD_REQUEST) => return wrong(program, index, &request, BAD_REQUEST),
            Some(answer) => {
                if let Some(words) = claims.broken(&request, answer) {
                    return wrong(program, index, &request, &words);
                }
                tally.count(&request, answer);
            }
        }
    }
    print_tally(&tally);
    finish(vec![(program, answers)], choice.count, "each answered")
}

fn wrong(program: &str, index: usize, request: &Request, words: &str) -> io::Result<bool> {
    println!("{program}: {words} to request {index}:\n{request}");
    Ok(false)
}

/// The last line, if no program has more to say and all end well.
fn finish(programs: Vec<(&str, Answers)>, count: usize, words: &str) -> io::Result<bool> {
    for (program, mut answers) in programs {
        if let Some(answer) = answers.next() {
            println!("{program}: an answer too many:\n{answer}");
            return Ok(false);
        }
        if !answers.ended_well() {
            println!("{program}: ended with a fault");
            return Ok(false);
        }
    }
    println!("{count} requests, {words}");
    Ok(true)
}

fn print_tally(tally: &Tally) {
    for (line, count) in tally.lines() {
        println!("{count:>9}  {line}");
    }
}

/// Runs two programs on the same requests, up to the first difference or answer against a claim.
fn compare(programs: [&str; 2], choice: Choice) -> io::Result<bool> {
    let [program, other] = programs;
    let mut answers = ask(program, choice.requests())?;
    let mut others = ask(other, choice.requests())?;
    let (mut tally, mut claims) = (Tally::default(), Claims::default());
    for (index, request) in choice.requests().enumerate() {
        let answer = answers.next();
        if answer.is_none() || answer != others.next() {
            drop((answers, others));
            let led = choice.requests().take(index + 1).collect();
            return show_difference(programs, index, led);
        }
        let answer = answer.unwrap_or_default();
        if let Some(words) = claims.broken(&request, &answer) {
            return wrong("both programs", index, &request, &words);
        }
        tally.count(&request, &answer);
    }
    print_tally(&tally);
    finish(
        vec![(program, answers), (other, others)],
        choice.count,
        "no difference",
    )
}

fn show_difference(programs: [&str; 2], index: usize, led: Vec<Request>) -> io::Result<bool> {
    println!("difference at request {index}; shortened:");
    let shortened = shorten(led, |requests| {
        first_difference(programs, requests).is_ok_and(|found| found.is_some())
    });
    for request in &shortened {
        println!("{request}");
    }
    if let Some(answers) = first_difference(programs, &shortened)? {
        for (program, answer) in programs.iter().zip(answers) {
            println!("{program}: {}", answer.as_deref().unwrap_or("(no answer)"));
        }
    }
    Ok(false)
}

/// The first two answers that differ, or are missing.
fn first_difference(
    programs: [&str; 2],
    requests: &[Request],
) -> io::Result<Option<[Option<String>; 2]>> {
    let mut answers = ask(programs[0], requests.to_vec())?;
    let mut others = ask(programs[1], requests.to_vec())?;
    for _ in requests {
        let pair = [answers.next(), others.next()];
        if pair[0].is_none() || pair[0] != pair[1] {
            return Ok(Some(pair));
        }
    }
    Ok(None)
}
