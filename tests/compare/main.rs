//! compare COUNT SEED [--wrong READING]: plays COUNT generated day files with the library and with the independent
//! player, and compares every byte of the output, the bytes behind it and the answer. It stops with status 1 at the
//! first difference and keeps that file. With --wrong the player takes a wrong reading of the Rule, which the
//! comparison has to find. compare --readings prints the names of these.

mod generate;
mod library;
mod player;
mod records;
mod words;

use generate::{Random, Sort};
use player::{Played, Reading, WRONG_READINGS};
use std::process::ExitCode;

/// Fills the output before a call, so that a byte written where none may be shows.
const PATTERN: u8 = 0xA5;
/// So many bytes around the output must stay as they are.
const MARGIN: usize = 32;
/// From this many files on, each case that a file can show must have been seen.
const ENOUGH: u64 = 1_000;

/// What was seen in the files of one sort.
#[derive(Default)]
struct Seen {
    files: u64,
    records_refused: [u64; 19],
    rows: [u64; 7],
    faults: [u64; 19],
    cut: u64,
}

impl Seen {
    /// Counts the lines of a file by their last numbers: a row's mark, a refusal, a fault.
    fn count(&mut self, played: &Played) {
        self.files += 1;
        self.faults[played.fault as usize] += 1;
        for line in played.text.split(|&byte| byte == b'\n').filter(|line| !line.is_empty()) {
            let word = line.rsplit(|&byte| byte == b' ').next().unwrap_or(line);
            let last = || word.iter().fold(0, |number, digit| number * 10 + usize::from(digit - b'0'));
            match line[0] {
                b'R' => self.records_refused[last()] += 1,
                b'T' | b'X' => {}
                _ => self.rows[last()] += 1,
            }
        }
    }

    fn print(&self, sort: Sort) {
        let list = |counts: &[u64], numbers: &[usize]| -> String {
            numbers.iter().map(|&n| format!(" {n}: {}", counts[n])).collect::<Vec<_>>().join(",")
        };
        println!("compare: {sort:?}: {} files, {} of the short outputs cut", self.files, self.cut);
        println!("    rows by mark:{}", list(&self.rows, &[1, 2, 3, 4, 6]));
        println!("    refusals by number:{}", list(&self.records_refused, &[1, 2, 3, 4, 5, 6, 8, 9]));
        println!("    faults by number:{} (0: none)", list(&self.faults, &[0, 15, 16, 17]));
    }
}

/// Plays the file into an output of this length, and says how that differs from what is due.
fn difference(file: &[u8], due: &Played, out_len: usize, offset: usize) -> Option<String> {
    let (written, answer) = due.into_output(out_len);
    let begin = MARGIN + offset;
    let mut area = vec![PATTERN; begin + out_len + MARGIN];
    let mut expected = area.clone();
    expected[begin..begin + written].copy_from_slice(&due.text[..written]);
    let given = library::play(file, &mut area[begin..begin + out_len]);
    if given != answer {
        let lines = lines(due, &area[begin..]);
        return Some(format!("output of {out_len} bytes: the answer is {given}, due is {answer}; {lines}"));
    }
    let at = (0..area.len()).find(|&at| area[at] != expected[at])?;
    let (place, lines) = (at as i64 - begin as i64, lines(due, &area[begin..]));
    Some(format!("output of {out_len} bytes: byte {place} differs; {lines}"))
}

/// The first line that differs, as the player and as the library have it.
fn lines(due: &Played, given: &[u8]) -> String {
    let same = due.text.iter().zip(given).take_while(|(one, other)| one == other).count();
    let begin = due.text[..same].iter().rposition(|&byte| byte == b'\n').map_or(0, |at| at + 1);
    let line = |text: &[u8]| {
        let rest = &text[begin.min(text.len())..];
        let end = rest.iter().position(|&byte| byte == b'\n').unwrap_or(rest.len().min(60));
        String::from_utf8_lossy(&rest[..end]).into_owned()
    };
    format!("the player's line at {begin} is '{}', the library's '{}'", line(&due.text), line(given))
}

fn keep(file: &[u8], seed: u64, index: u64) -> String {
    let path = std::env::temp_dir().join(format!("odd-lot-compare-{seed}-{index}.day"));
    match std::fs::write(&path, file) {
        Ok(()) => format!("the file is kept as {}", path.display()),
        Err(error) => format!("the file could not be kept as {}: {error}", path.display()),
    }
}

/// Compares so many files. The error says what differs.
fn compare(count: u64, seed: u64, reading: Reading) -> Result<[Seen; 3], String> {
    let mut random = Random::new(seed);
    let mut seen = <[Seen; 3]>::default();
    for index in 0..count {
        let (sort, file) = generate::file(&mut random);
        let due = player::play(&file, reading);
        let of_sort = &mut seen[sort as usize];
        of_sort.count(&due);
        let kept = file.clone();
        let full = due.text.len();
        let short = random.below(full as u64 + 2) as usize;
        of_sort.cut += u64::from(short < full);
        for out_len in [full + 1_000, short] {
            let offset = random.below(8) as usize;
            let wrong = difference(&file, &due, out_len, offset)
                .or_else(|| (file != kept).then(|| "the file itself was changed".to_string()));
            if let Some(wrong) = wrong {
                let kept = keep(&kept, seed, index);
                return Err(format!("file {index} ({sort:?}, {} bytes): {wrong}; {kept}", file.len()));
            }
        }
    }
    Ok(seen)
}

/// The cases that no file has shown.
fn missing(seen: &[Seen; 3]) -> Vec<String> {
    let none = |count: &dyn Fn(&Seen) -> u64| seen.iter().all(|one| count(one) == 0);
    let rows = [1, 2, 3, 4, 6].into_iter().filter(|&n| none(&|one| one.rows[n])).map(|n| format!("mark {n}"));
    let refused = [1, 2, 3, 4, 5, 6, 8, 9].into_iter().filter(|&n| none(&|one| one.records_refused[n]));
    let faults = [0, 15, 16, 17].into_iter().filter(|&n| none(&|one| one.faults[n])).map(|n| format!("fault {n}"));
    rows.chain(refused.map(|n| format!("refusal {n}"))).chain(faults).collect()
}

fn run(count: u64, seed: u64, reading: Reading) -> Result<(), String> {
    let seen = compare(count, seed, reading)?;
    for (sort, of_sort) in [Sort::Valid, Sort::Hostile, Sort::Damaged].into_iter().zip(&seen) {
        of_sort.print(sort);
    }
    let missing = missing(&seen);
    if count >= ENOUGH && !missing.is_empty() {
        return Err(format!("no file has shown {}", missing.join(", ")));
    }
    println!("compare: {count} files from seed {seed}, each played twice: no difference");
    Ok(())
}

fn usage(message: &str) -> ExitCode {
    eprintln!("compare: {message}; usage: compare COUNT SEED [--wrong READING] | compare --readings");
    ExitCode::from(2)
}

fn main() -> ExitCode {
    let arguments: Vec<String> = std::env::args().skip(1).collect();
    let arguments: Vec<&str> = arguments.iter().map(String::as_str).collect();
    let (count, seed, reading) = match arguments[..] {
        ["--readings"] => {
            WRONG_READINGS.iter().for_each(|(name, _)| println!("{name}"));
            return ExitCode::SUCCESS;
        }
        [count, seed] => (count, seed, Some(Reading::Right)),
        [count, seed, "--wrong", name] => {
            (count, seed, WRONG_READINGS.iter().find(|one| one.0 == name).map(|one| one.1))
        }
        _ => return usage("wrong arguments"),
    };
    let (Ok(count), Ok(seed)) = (count.parse(), seed.parse()) else { return usage("COUNT and SEED are numbers") };
    let Some(reading) = reading else { return usage("no such reading") };
    match run(count, seed, reading) {
        Ok(()) => ExitCode::SUCCESS,
        Err(wrong) => {
            println!("compare: DIFFERENT: {wrong}");
            ExitCode::FAILURE
        }
    }
}
