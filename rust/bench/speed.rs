//! Both crates in one process on the same texts: `cargo bench` prints the tables of docs/SPEED.md.
//!
//! A round reads every text of a class some times over with each crate, the one that goes first
//! changing from round to round. The ratio is taken within a round, and the median of the ratios is told: what
//! slows the machine down for a while slows both. Times are those of the fastest round.

mod texts;

use std::hint::black_box;
use std::time::Instant;

use texts::Class;

/// Nanoseconds that svgtypes gets in a round: a class is read as often as that takes, at least once.
const ROUND_NS: f64 = 100_000.0;

/// Rounds of each class; `HOMELUDAF_ROUNDS` says otherwise.
const ROUNDS: usize = 2_001;

/// What a text is read as.
#[derive(Clone, Copy)]
enum Kind {
    Color,
    Paint,
    Length,
    Lengths,
    Angle,
    Iri,
    FuncIri,
    Filters,
}

/// A text, and what it is read as.
type Text = (Kind, String);

/// How many values were read and how many were refused: both crates must tell the same.
type Told = (usize, usize);

macro_rules! reader {
    ($name:ident, $from:ident) => {
        mod $name {
            use super::{black_box, Kind, Text, Told};
            use std::str::FromStr;
            use $from::{Angle, Color, FilterValueListParser, FuncIRI};
            use $from::{Length, LengthListParser, Paint, IRI};

            #[inline(always)]
            fn one<T, E>(told: &mut Told, read: Result<T, E>) {
                match black_box(read) {
                    Ok(_) => told.0 += 1,
                    Err(_) => told.1 += 1,
                }
            }

            fn all<T, E>(told: &mut Told, list: impl Iterator<Item = Result<T, E>>) {
                for read in list {
                    one(told, read);
                }
            }

            pub fn read(texts: &[Text]) -> Told {
                let mut told = (0, 0);
                for (kind, text) in texts {
                    let text = black_box(text.as_str());
                    match kind {
                        Kind::Color => one(&mut told, Color::from_str(text)),
                        Kind::Paint => one(&mut told, Paint::from_str(text)),
                        Kind::Length => one(&mut told, Length::from_str(text)),
                        Kind::Lengths => all(&mut told, LengthListParser::from(text)),
                        Kind::Angle => one(&mut told, Angle::from_str(text)),
                        Kind::Iri => one(&mut told, IRI::from_str(text)),
                        Kind::FuncIri => one(&mut told, FuncIRI::from_str(text)),
                        Kind::Filters => all(&mut told, FilterValueListParser::from(text)),
                    }
                }
                told
            }
        }
    };
}

reader!(ours, homeludaf);
reader!(theirs, svgtypes);

/// Nanoseconds for one reading of all texts, from `times` readings.
fn timed(read: fn(&[Text]) -> Told, class: &Class, times: usize) -> f64 {
    let start = Instant::now();
    for _ in 0..times {
        black_box(read(black_box(&class.texts)));
    }
    start.elapsed().as_nanos() as f64 / times as f64
}

/// What was measured of a class: nanoseconds for one reading, and ours over theirs.
struct Measured {
    ours: f64,
    theirs: f64,
    ratio: f64,
}

fn measure(class: &Class, rounds: usize) -> Measured {
    assert_eq!(
        ours::read(&class.texts),
        theirs::read(&class.texts),
        "class {}: the crates disagree",
        class.name
    );
    let times = (ROUND_NS / timed(theirs::read, class, 10)).max(1.0) as usize;
    let mut told = Measured {
        ours: f64::MAX,
        theirs: f64::MAX,
        ratio: 0.0,
    };
    let mut ratios = Vec::with_capacity(rounds);
    for round in 0..rounds {
        let (a, b);
        if round % 2 == 0 {
            a = timed(ours::read, class, times);
            b = timed(theirs::read, class, times);
        } else {
            b = timed(theirs::read, class, times);
            a = timed(ours::read, class, times);
        }
        told.ours = told.ours.min(a);
        told.theirs = told.theirs.min(b);
        ratios.push(a / b);
    }
    ratios.sort_by(f64::total_cmp);
    told.ratio = ratios[rounds / 2];
    told
}

/// Leaves out the texts of which one crate reads or refuses more values than the other: ours refuses
/// a text over 4,096 bytes and a number outside the domain. How many were left out.
fn leave_out(class: &mut Class) -> usize {
    let all = class.texts.len();
    let alike = |text: &Text| {
        let text = std::slice::from_ref(text);
        ours::read(text) == theirs::read(text)
    };
    class.texts.retain(alike);
    all - class.texts.len()
}

/// A row of the table; the ratio is given back.
fn row(class: &Class, rounds: usize) -> f64 {
    let m = measure(class, rounds);
    let texts = class.texts.len() as f64;
    println!(
        "| {} | {} | {} | {:.1} | {:.1} | {:.2} | {:.2} |",
        class.name,
        class.texts.len(),
        class.bytes(),
        m.ours / texts,
        m.theirs / texts,
        m.ratio,
        m.ours / m.theirs
    );
    m.ratio
}

fn table(what: &str, classes: &[Class], rounds: usize) {
    println!("| {what} | Texts | Bytes | homeludaf, ns a text | svgtypes, ns a text | Median ratio | Ratio of minima |");
    println!("|---|---|---|---|---|---|---|");
    let logs: f64 = classes.iter().map(|class| row(class, rounds).ln()).sum();
    println!();
    println!(
        "Geometric mean of the median ratios: {:.2}",
        (logs / classes.len() as f64).exp()
    );
    println!();
}

fn wild(rounds: usize) {
    let mut classes = texts::wild();
    let mut left_out = Vec::new();
    for class in &mut classes {
        left_out.push(format!("{} of the {}", leave_out(class), class.name));
    }
    table("Texts from SVG files", &classes, rounds);
    println!(
        "Left out, since one crate alone refuses: {}.",
        left_out.join(", ")
    );
    println!();
}

fn growth(rounds: usize) {
    println!("| List | Bytes | homeludaf, ns a byte | svgtypes, ns a byte |");
    println!("|---|---|---|---|");
    for class in texts::growing() {
        let m = measure(&class, rounds);
        let bytes = class.bytes() as f64;
        println!(
            "| {} | {} | {:.2} | {:.2} |",
            class.name,
            class.bytes(),
            m.ours / bytes,
            m.theirs / bytes
        );
    }
}

fn main() {
    let rounds = match std::env::var("HOMELUDAF_ROUNDS") {
        Ok(said) => said.parse().expect("HOMELUDAF_ROUNDS is a number"),
        Err(_) => ROUNDS,
    };
    table("Chosen texts", &texts::chosen(), rounds);
    wild(rounds);
    growth(rounds);
}
