//! The reference and the library against cases of our own, and against test vectors: a folder with
//! `calls.in`, `calls.out` and `histories/NAME.in`, `NAME.out`, which the environment variable
//! GORVYTS_VECTORS names. Without it our own alone are compared.

mod reference;

use std::env;
use std::fs;
use std::path::{Path, PathBuf};

use gorvyts::calls::{self, IMAGE_MOST};
use gorvyts::{Image, Refusal};
use reference::lookup::{self, Tally};
use reference::pool::{Changed, Pool, Report};
use reference::{history, image, sha1};

fn folder(test: &str) -> Option<PathBuf> {
    let folder = env::var_os("GORVYTS_VECTORS").map(PathBuf::from);
    if folder.is_none() {
        println!("vectors, {test}: skipped, GORVYTS_VECTORS is not set");
    }
    folder
}

/// A file or folder of the test programs, which hold our own cases.
fn own(path: &str) -> PathBuf {
    Path::new(env!("CARGO_MANIFEST_DIR")).join("../../crates").join(path)
}

#[test]
fn call_lines() {
    let Some(folder) = folder("calls") else { return };
    compare_calls("vectors", &folder.join("calls.in"), &folder.join("calls.out"));
}

#[test]
fn own_call_lines() {
    compare_calls("own", &own("test_calls/own.in"), &own("test_calls/own.out"));
}

fn compare_calls(whose: &str, questions: &Path, answers: &Path) {
    let questions = fs::read_to_string(questions).unwrap();
    let answers = fs::read_to_string(answers).unwrap();
    assert_eq!(questions.lines().count(), answers.lines().count());
    let mut by_library = 0;
    for (question, answer) in questions.lines().zip(answers.lines()) {
        let words: Vec<&str> = question.split(' ').collect();
        assert_eq!(by_reference(&words), answer, "the reference on: {question}");
        if let Some(given) = by_the_library(&words) {
            assert_eq!(given, answer, "the library on: {question}");
            by_library += 1;
        }
    }
    println!(
        "{whose}, calls: {} lines by the reference, {by_library} by the library",
        answers.lines().count()
    );
}

#[test]
fn histories() {
    let Some(folder) = folder("histories") else { return };
    compare_histories("vectors", &folder.join("histories"));
}

#[test]
fn own_histories() {
    compare_histories("own", &own("test_histories/data/own"));
}

fn compare_histories(whose: &str, folder: &Path) {
    let mut count = 0;
    for entry in fs::read_dir(folder).unwrap() {
        let question = entry.unwrap().path();
        if question.extension().is_some_and(|extension| extension == "in") {
            let text = fs::read(&question).unwrap();
            let expected = fs::read(question.with_extension("out")).unwrap();
            let name = question.display();
            assert!(history::transcript(&text).as_bytes() == expected, "the reference on {name}");
            assert!(gorvyts::transcript(&text) == expected, "the library on {name}");
            count += 1;
        }
    }
    assert!(count > 0);
    println!("{whose}, histories: {count}");
}

fn by_reference(words: &[&str]) -> String {
    match words[..] {
        ["sha1", bytes] => match sha1::digest(&unhex(bytes)) {
            Ok(digest) => format!("0 {}", digest.map(|word| format!("{word:08x}")).concat()),
            Err(number) => format!("{number} {}", "0".repeat(40)),
        },
        ["capacity", text] => one(history::capacity(&unhex(text))),
        ["point", block, try_number, range] => {
            one(Ok(lookup::point(number(block), number(try_number) as u32, number(range))))
        }
        ["owner", pool, point] => one(lookup::owner(&read(pool), number(point))),
        ["copies", pool, block, k, lookups, tries] => {
            let mut tally = Tally { lookups: number(lookups) as u32, tries: number(tries) as u32 };
            let copies = lookup::copies(&read(pool), number(block), number(k), &mut tally);
            let owners = copies.owners.map(|owner| owner.to_string()).join(" ");
            format!("{} {owners} {} {} {}", copies.number, copies.tries, tally.lookups, tally.tries)
        }
        ["report", pool, id] => reported(read(pool).report(number(id))),
        ["add", pool, id, capacity, places] => {
            let pool = read(pool);
            changed(&pool, pool.add(number(id), number(capacity), number(places) as usize))
        }
        ["remove", pool, id, places] => {
            let pool = read(pool);
            changed(&pool, pool.remove(number(id), number(places) as usize))
        }
        ["resize", pool, id, capacity, places] => {
            let pool = read(pool);
            changed(&pool, pool.resize(number(id), number(capacity), number(places) as usize))
        }
        ["read", bytes] => {
            let (number, pool) = match image::read(&unhex(bytes)) {
                Ok(pool) => (0, pool),
                Err(number) => (number, Pool::least()),
            };
            format!("{number} {}", hex(&image::write(&pool)))
        }
        ["write", pool, size] => {
            let written = image::write(&read(pool));
            let mut buffer = vec![0xaa; number(size) as usize];
            let fits = written.len() <= buffer.len();
            if fits {
                buffer[..written.len()].copy_from_slice(&written);
            }
            let (number, length) = if fits { (0, written.len()) } else { (17, 0) };
            format!("{number} {length} {}", hex(&buffer))
        }
        _ => panic!("a line of no known shape"),
    }
}

/// Those lines that the library has a call for.
fn by_the_library(words: &[&str]) -> Option<String> {
    Some(match words[..] {
        ["owner", pool, point] => {
            let (pool, point) = (unhex(pool), number(point));
            let mut answer = [0];
            let refusal = calls::owner(&pool, point, &mut answer);
            let opened = Image::check(pool).unwrap().open().owner(point);
            assert_eq!(
                opened.map_err(Refusal::number),
                if refusal == 0 { Ok(answer[0]) } else { Err(refusal) }
            );
            format!("{refusal} {}", answer[0])
        }
        ["copies", pool, block, k, lookups, tries] => {
            let (pool, block, k) = (unhex(pool), number(block), number(k));
            let mut tally = [number(lookups) as u32, number(tries) as u32];
            let mut counters = gorvyts::Tally { lookups: tally[0], probes: tally[1] };
            let mut row = [0; 10];
            let refusal = calls::copies(&pool, block, k, &mut tally, &mut row);
            assert_eq!(row[0], refusal);
            let copies = Image::check(pool).unwrap().open().copies(block, k, &mut counters);
            assert_eq!(copies.as_ref().map_err(|refusal| refusal.number()).err().unwrap_or(0), refusal);
            if let Ok(copies) = copies {
                let owners = copies.owners.iter().copied().chain([0; 8]).take(8);
                assert!(owners.eq(row[1..9].iter().map(|&id| u64::from(id))) && copies.probes == row[9]);
            }
            assert_eq!([counters.lookups, counters.probes], tally);
            let row = row.map(|number| number.to_string()).join(" ");
            format!("{row} {} {}", tally[0], tally[1])
        }
        ["report", pool, id] => {
            let (pool, id) = (unhex(pool), number(id));
            let (mut answer, mut difference) = ([7; 2], 7);
            let refusal = calls::report(&pool, id, &mut answer, &mut difference);
            let report = Image::check(pool).unwrap().report(id);
            match report {
                Ok(report) => {
                    assert_eq!((refusal, [report.whole, report.remainder]), (0, answer));
                    assert_eq!(report.difference, difference);
                }
                Err(number) => assert_eq!(number.number(), refusal),
            }
            format!("{refusal} {} {} {difference}", answer[0], answer[1])
        }
        ["add", pool, id, capacity, places] => {
            let pool = unhex(pool);
            changed_by_the_library(&pool, places, |next, list, answer| {
                calls::add(&pool, number(id), number(capacity), next, list, answer)
            })
        }
        ["remove", pool, id, places] => {
            let pool = unhex(pool);
            changed_by_the_library(&pool, places, |next, list, answer| {
                calls::remove(&pool, number(id), next, list, answer)
            })
        }
        ["resize", pool, id, capacity, places] => {
            let pool = unhex(pool);
            changed_by_the_library(&pool, places, |next, list, answer| {
                calls::resize(&pool, number(id), number(capacity), next, list, answer)
            })
        }
        ["read", bytes] => {
            let bytes = unhex(bytes);
            match calls::check(&bytes) {
                0 => format!("0 {}", hex(&bytes)),
                refusal => format!("{refusal} {}", hex(&image::write(&Pool::least()))),
            }
        }
        _ => return None,
    })
}

fn changed_by_the_library(
    before: &[u8],
    places: &str,
    call: impl FnOnce(&mut [u8], &mut [u64], &mut [u64]) -> u32,
) -> String {
    let mut next = vec![0; IMAGE_MOST];
    let mut list = vec![0; 4 * number(places) as usize];
    let mut answer = [0; 3];
    let refusal = call(&mut next, &mut list, &mut answer);
    let [length, moved, moves] = answer;
    let after = if refusal == 0 { &next[..length as usize] } else { before };
    let list: String = list[..4 * moves as usize].iter().map(|number| format!(" {number}")).collect();
    format!("{refusal} {moved} {moves} {}{list}", hex(after))
}

fn one(result: Result<u64, u32>) -> String {
    match result {
        Ok(value) => format!("0 {value}"),
        Err(number) => format!("{number} 0"),
    }
}

fn reported(result: Result<Report, u32>) -> String {
    match result {
        Ok(Report { whole, remainder, difference }) => format!("0 {whole} {remainder} {difference}"),
        Err(number) => format!("{number} 0 0 0"),
    }
}

fn changed(before: &Pool, result: Result<Changed, u32>) -> String {
    match result {
        Ok(Changed { pool, moves, moved }) => {
            let list: String =
                moves.iter().map(|m| format!(" {} {} {} {}", m.start, m.length, m.from, m.to)).collect();
            format!("0 {moved} {} {}{list}", moves.len(), hex(&image::write(&pool)))
        }
        Err(number) => format!("{number} 0 0 {}", hex(&image::write(before))),
    }
}

fn read(pool: &str) -> Pool {
    image::read(&unhex(pool)).unwrap()
}

fn number(word: &str) -> u64 {
    word.parse().unwrap()
}

fn hex(bytes: &[u8]) -> String {
    if bytes.is_empty() {
        return "-".to_string();
    }
    bytes.iter().map(|byte| format!("{byte:02x}")).collect()
}

fn unhex(text: &str) -> Vec<u8> {
    if text == "-" {
        return Vec::new();
    }
    text.as_bytes()
        .chunks(2)
        .map(|two| u8::from_str_radix(std::str::from_utf8(two).unwrap(), 16).unwrap())
        .collect()
}
