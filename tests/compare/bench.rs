//! bench [SECONDS]: the time of the library over that of a plain linear player, in one run and on the same files:
//! generated valid days of 65,536 bytes. Both give the same bytes, which is checked before the timing. A figure is
//! the median over the rounds; in a round each player plays all files of a shape, the two in turn.

#[allow(dead_code)] // its hostile and damaged files
mod generate;
mod library;
mod linear;
mod records;
mod words;

use generate::{Random, Shape, BUSY, DEEP};
use records::{Reader, LONGEST};
use std::hint::black_box;
use std::process::ExitCode;
use std::time::{Duration, Instant};

const FILES: usize = 12;
const OUTPUT: usize = 376_860; // as in c/odd_lot_day.h: enough for every file
const LEAST_ROUNDS: usize = 5;
const MOST_ROUNDS: usize = 201;

type Play = fn(&[u8], &mut [u8]) -> u64;

fn records_of(file: &[u8]) -> usize {
    let mut reader = Reader::new(file);
    let mut count = 0;
    while let Ok(Some(_)) = reader.record() {
        count += 1;
    }
    count
}

fn same_output(file: &[u8], library: &mut [u8], linear: &mut [u8]) -> bool {
    library::play(file, library) == linear::play(file, linear) && library == linear
}

/// The time of one player over all files.
fn round(play: Play, files: &[Vec<u8>], out: &mut [u8]) -> Duration {
    let begin = Instant::now();
    for file in files {
        black_box(play(black_box(file), out));
    }
    begin.elapsed()
}

fn median(mut times: Vec<Duration>) -> f64 {
    times.sort();
    times[times.len() / 2].as_secs_f64()
}

/// Measures days of one shape, for about so long.
fn measure(name: &str, shape: &Shape, random: &mut Random, time: Duration) -> Result<(), String> {
    let files: Vec<Vec<u8>> = (0..FILES).map(|_| generate::day(random, shape, LONGEST, 0)).collect();
    let records: usize = files.iter().map(|file| records_of(file)).sum();
    let (mut out, mut other) = (vec![0; OUTPUT], vec![0; OUTPUT]);
    if let Some(at) = files.iter().position(|file| !same_output(file, &mut out, &mut other)) {
        return Err(format!("{name}: the two players differ in file {at}"));
    }
    let (begin, mut library, mut linear) = (Instant::now(), vec![], vec![]);
    while library.len() < LEAST_ROUNDS || begin.elapsed() < time && library.len() < MOST_ROUNDS {
        library.push(round(library::play, &files, &mut out));
        linear.push(round(linear::play, &files, &mut other));
    }
    let rounds = library.len();
    let (library, linear) = (median(library), median(linear));
    println!("bench: {name}: {FILES} files, {records} records, {rounds} rounds");
    for (player, seconds) in [("odd_lot_play ", library), ("linear player", linear)] {
        let (millis, rate) = (seconds * 1e3 / FILES as f64, records as f64 / seconds);
        println!("    {player}  {millis:9.3} ms a file  {rate:12.0} records a second");
    }
    println!("    ratio          {:9.2}", library / linear);
    Ok(())
}

fn main() -> ExitCode {
    let seconds: u64 = std::env::args().nth(1).and_then(|text| text.parse().ok()).unwrap_or(16);
    let time = Duration::from_secs(seconds) / 2;
    let mut random = Random::new(124);
    println!("bench: each player has one output of {OUTPUT} bytes, touched before the timing");
    println!("bench: outputs were not cleared between calls");
    let busy = measure("short book (busy days)", &BUSY, &mut random, time);
    let deep = busy.and_then(|()| measure("long book (orders pile up)", &DEEP, &mut random, time));
    match deep {
        Ok(()) => ExitCode::SUCCESS,
        Err(message) => {
            println!("bench: {message}");
            ExitCode::FAILURE
        }
    }
}
