//! Rows of calls that are timed, in each of several forms, beside a plain
//! copy of the octets that the call hands over. The form under test, where
//! there is one, comes first, and the ratios are its own.

mod chunks;
mod t1;

pub use chunks::feeds;
pub use t1::T1;

use chunks::{Chunks, Feeds};
use given::making::{densest, false_starts, set_slot16, shifted, wrong_signals};
use given::Random;
use optimised::{chain, fold, Check};
use oracle::{read, signals, why, write, write_signalled, Exchange};
use std::arch::asm;
use std::env;
use std::process::ExitCode;
use std::time::{Duration, Instant};

const ROUNDS: usize = 100;
const ROUND: Duration = Duration::from_millis(1);

type Read = Box<dyn Fn(&[u8], &mut [u8], &mut [u8]) -> u64>;
type Signals = Box<dyn Fn(&[u8], &mut [u8]) -> u64>;
type Why = Box<dyn Fn(&[u8], u64) -> u64>;
type Write = Box<dyn Fn(&[u8], &[u8], u64, &mut [u8]) -> u64>;
type WriteSignalled = Box<dyn Fn(&[u8], &[u8], u64, &[u8], &[u8], &mut [u8]) -> u64>;
type Map = Box<dyn Fn(&[u8], &mut [u8]) -> u64>;

/// The operations in one form, each answering its number with the rest of its
/// answer `hidden`. `map` has the map that `records` make; there are no `feeds`
/// where they would take too long.
pub struct Form {
    pub name: &'static str,
    pub read: Read,
    pub signals: Signals,
    pub why: Why,
    pub write: Write,
    pub write_signalled: WriteSignalled,
    pub map: Map,
    pub feeds: Option<Feeds>,
    pub t1: T1,
}

/// The oracle.
pub fn plain() -> Form {
    let exchange = exchange();
    Form {
        name: "plain",
        read: Box::new(|image, payload, slot0| hidden(read(image, payload, slot0)).number),
        signals: Box::new(|image, abcd| hidden(signals(image, abcd)).number),
        why: Box::new(|image, place| hidden(why(image, place)).number),
        write: Box::new(|payload, overhead, check, out| {
            hidden(write(payload, overhead, check, out)).number
        }),
        write_signalled: Box::new(|payload, overhead, check, xy, abcd, out| {
            hidden(write_signalled(payload, overhead, check, xy, abcd, out)).number
        }),
        map: Box::new(move |payload, out| exchange.map(payload, out)),
        feeds: None,
        t1: t1::plain(),
    }
}

/// The form that is the mark, with the chained check.
pub fn optimised() -> Form {
    with_check("optimised", chain::check)
}

/// The same with the folded check.
pub fn folded() -> Form {
    with_check("folded", fold::check)
}

fn with_check(name: &'static str, check: Check) -> Form {
    let exchange = exchange();
    Form {
        name,
        read: Box::new(move |image, payload, slot0| {
            hidden(optimised::read(image, payload, slot0, check)).number
        }),
        signals: Box::new(|image, abcd| hidden(optimised::signals(image, abcd)).number),
        why: Box::new(|image, place| hidden(optimised::why(image, place)).number),
        write: Box::new(move |payload, overhead, carried, out| {
            hidden(optimised::write(payload, overhead, carried, out, check)).number
        }),
        write_signalled: Box::new(move |payload, overhead, carried, xy, abcd, out| {
            let written =
                optimised::write_signalled(payload, overhead, carried, xy, abcd, out, check);
            hidden(written).number
        }),
        map: Box::new(move |payload, out| optimised::map(&exchange, payload, out)),
        feeds: Some(feeds(
            optimised::Stream::start,
            move |stream, chunk, payload, slot0| stream.feed(chunk, payload, slot0, check),
        )),
        t1: t1::optimised(),
    }
}

/// A host's records that put the slots in reverse, one of them idle.
pub fn records() -> Vec<[u8; 4]> {
    let staged = (1..=31).map(|slot| [1, slot, 31 - slot, 0]);
    staged.chain([[2, 0, 0, 0]]).collect()
}

fn exchange() -> Exchange {
    let mut exchange = Exchange::start();
    exchange.key(1);
    for record in records() {
        exchange.host(&record);
    }
    exchange.boundary();
    exchange
}

/// What a row calls.
enum Asked {
    /// Of an image that is answered with this number.
    Read {
        image: Vec<u8>,
        number: u64,
    },
    /// Of an image of which so many signalling multiframes are read.
    Signals {
        image: Vec<u8>,
        multiframes: u64,
    },
    Write {
        payload: Vec<u8>,
        overhead: Vec<u8>,
    },
    WriteSignalled {
        payload: Vec<u8>,
        overhead: Vec<u8>,
        xy: Vec<u8>,
        abcd: Vec<u8>,
    },
    Map {
        payload: Vec<u8>,
    },
    /// About place 0 of an image of which this condition is said.
    Why {
        image: Vec<u8>,
        condition: u64,
    },
    Feed(Chunks),
    T1(t1::Call),
}

type Row = (&'static str, Asked);

fn rows() -> Vec<Row> {
    let r = &mut Random::new(0, 0);
    let payload = r.octets(7_936);
    let overhead = [31, 31, 31, 31, 31, 31, 95, 95].repeat(16);
    let mut aligned = vec![0; 8_192];
    write(&payload, &overhead, 0, &mut aligned);
    let mut moved = shifted(&aligned, 3);
    moved.truncate(8_192);
    // Signals, none of them 2, 4 or 6 ms from another.
    let false_starts = false_starts(8_192, &[0, 0, 1, 0, 1, 1, 0]);
    // One signal, and none behind it within the reach of place 0.
    let mut unpaired = aligned.clone();
    wrong_signals(&mut unpaired, &[1, 2, 3]);
    // This noise has basic alignment somewhere, as most of its length has.
    let noise = r.octets(8_192);
    let (xy, abcd) = (r.numbers(16, 0, 15), r.numbers(480, 1, 15));
    let mut signalled = vec![0; 8_192];
    write_signalled(&payload, &overhead, 0, &xy, &abcd, &mut signalled);
    let mut signalled_moved = shifted(&signalled, 3);
    signalled_moved.truncate(8_192);
    // No frame has the signal, so every one is looked at.
    let mut unsignalled = signalled.clone();
    let frames: Vec<usize> = (0..256).step_by(16).collect();
    set_slot16(&mut unsignalled, &frames, 0xDD);
    let read = |image, number| Asked::Read { image, number };
    let signals = |image, multiframes| Asked::Signals { image, multiframes };
    let why = |image, condition| Asked::Why { image, condition };
    let mut rows = vec![
        ("read-place-0", read(aligned.clone(), 0)),
        ("read-place-3", read(moved, 0)),
        ("read-noise", read(noise, 15)),
        ("read-0x1B", read(vec![0x1B; 8_192], 3)),
        ("read-false-starts", read(false_starts, 15)),
        ("read-densest", read(densest(8_192), 15)),
        ("signals-place-0", signals(signalled, 15)),
        ("signals-place-3", signals(signalled_moved, 14)),
        ("signals-none", signals(unsignalled, 0)),
        (
            "write-16",
            Asked::Write {
                payload: payload.clone(),
                overhead: overhead.clone(),
            },
        ),
        (
            "write-signalled-16",
            Asked::WriteSignalled {
                payload: payload.clone(),
                overhead,
                xy,
                abcd,
            },
        ),
        ("map-16", Asked::Map { payload }),
        ("why-stands", why(aligned, 0)),
        ("why-no-pair", why(unpaired, 4)),
    ];
    rows.extend(t1::rows());
    rows
}

fn feed_rows() -> Vec<Row> {
    let rows = chunks::rows().into_iter();
    rows.map(|(name, chunks)| (name, Asked::Feed(chunks)))
        .collect()
}

type Contender<'a> = Box<dyn FnMut() + 'a>;

/// The value, from a place that the compiler must believe was read and set
/// (`black_box` is younger than the oldest compiler for this package).
pub fn hidden<T>(mut value: T) -> T {
    // SAFETY: no instruction at all.
    unsafe { asm!("/* {} */", in(reg) &mut value as *mut T, options(nostack, preserves_flags)) };
    value
}

impl Asked {
    /// The octets that a copy takes in the call's stead. Of a place that is asked
    /// about none are handed over, so these are the ones that it needs behind it;
    /// of signalling as many as there can be at the most.
    fn handed_over(&self) -> &[u8] {
        match self {
            Asked::Read { image, .. } => &image[..7_936],
            Asked::Signals { image, .. } => &image[..450],
            Asked::Write { payload, .. }
            | Asked::WriteSignalled { payload, .. }
            | Asked::Map { payload } => payload,
            Asked::Why { image, .. } => &image[..2_048],
            Asked::Feed(chunks) => &chunks.octets()[..chunks.octets().len() / 512 * 496],
            Asked::T1(call) => call.handed_over(),
        }
    }

    fn copier(&self) -> Contender<'_> {
        let octets = self.handed_over();
        let mut out = vec![0; octets.len()];
        Box::new(move || {
            out.copy_from_slice(hidden(octets));
            hidden(&out);
        })
    }

    /// The call in this form, where it has one.
    fn of<'a>(&'a self, form: &'a Form) -> Option<Contender<'a>> {
        let mut out = vec![0; 8_192];
        let mut slot0 = [0; 256];
        Some(match self {
            Asked::Read { image, number } => {
                let answered = (form.read)(image, &mut out, &mut slot0);
                assert_eq!(answered, *number, "{}", form.name);
                Box::new(move || {
                    hidden((form.read)(hidden(image), &mut out, &mut slot0));
                    hidden(&out);
                })
            }
            Asked::Signals { image, multiframes } => {
                let mut abcd = [0; 450];
                assert_eq!(signals(image, &mut abcd).multiframes, *multiframes);
                assert_eq!((form.signals)(image, &mut abcd), 0, "{}", form.name);
                Box::new(move || {
                    hidden((form.signals)(hidden(image), &mut abcd));
                    hidden(&abcd);
                })
            }
            Asked::Write { payload, overhead } => Box::new(move || {
                let (payload, overhead) = hidden((payload, overhead));
                hidden((form.write)(payload, overhead, 9, &mut out));
                hidden(&out);
            }),
            Asked::WriteSignalled {
                payload,
                overhead,
                xy,
                abcd,
            } => Box::new(move || {
                let (payload, overhead) = hidden((payload, overhead));
                let (xy, abcd) = hidden((xy, abcd));
                hidden((form.write_signalled)(
                    payload, overhead, 9, xy, abcd, &mut out,
                ));
                hidden(&out);
            }),
            Asked::Map { payload } => Box::new(move || {
                hidden((form.map)(hidden(payload), &mut out));
                hidden(&out);
            }),
            Asked::Why { image, condition } => {
                assert_eq!(why(image, 0).condition, *condition);
                assert_eq!((form.why)(image, 0), 0, "{}", form.name);
                Box::new(move || {
                    let (image, place) = hidden((image, 0));
                    hidden((form.why)(image, place));
                })
            }
            Asked::Feed(chunks) => return form.feeds.as_ref().map(|feeds| feeds(chunks)),
            Asked::T1(call) => call.of(form.name, &form.t1),
        })
    }
}

/// Without arguments the tables; with `rows` the names of the first, with `feeds`
/// those of the second and the octets of each; with a form, a row and a count,
/// that many calls and nothing else, for a program that counts instructions.
pub fn main(forms: &[Form]) -> ExitCode {
    let arguments: Vec<String> = env::args().skip(1).collect();
    let arguments: Vec<&str> = arguments.iter().map(String::as_str).collect();
    let done = match arguments[..] {
        [] => {
            table(forms);
            println!();
            feed_table(forms);
            Ok(())
        }
        ["rows"] => {
            println!("{}", names(&rows()).join("\n"));
            Ok(())
        }
        ["feeds"] => {
            for (name, chunks) in chunks::rows() {
                println!("{name} {}", chunks.octets().len());
            }
            Ok(())
        }
        [form, row, count] => run(forms, form, row, count),
        _ => Err("nothing, `rows`, `feeds`, or a form, a row and a count".to_string()),
    };
    match done {
        Ok(()) => ExitCode::SUCCESS,
        Err(why) => {
            eprintln!("{why}");
            ExitCode::FAILURE
        }
    }
}

fn names(rows: &[Row]) -> Vec<&'static str> {
    rows.iter().map(|(name, _)| *name).collect()
}

fn run(forms: &[Form], form: &str, row: &str, count: &str) -> Result<(), String> {
    let mut rows = rows();
    rows.extend(feed_rows());
    let (_, asked) = rows
        .iter()
        .find(|(name, _)| *name == row)
        .ok_or_else(|| format!("no row {row}; there are {}", names(&rows).join(", ")))?;
    let contender = match forms.iter().find(|f| f.name == form) {
        Some(form) => asked.of(form),
        None if form == "copy" => Some(asked.copier()),
        None => {
            let forms: Vec<&str> = forms.iter().map(|f| f.name).collect();
            return Err(format!(
                "no form {form}; there are {} and copy",
                forms.join(", ")
            ));
        }
    };
    let mut contender = contender.ok_or_else(|| format!("no {row} in form {form}"))?;
    let calls = count.parse().map_err(|_| format!("no count {count}"))?;
    time(&mut contender, calls);
    Ok(())
}

/// Microseconds a call.
fn table(forms: &[Form]) {
    let forms: Vec<&Form> = forms.iter().collect();
    print_head("Call", &forms, "µs");
    for (name, asked) in rows() {
        print_row(name, &best_of(&asked, &forms), 1_000.0);
    }
}

/// Nanoseconds an octet, in the forms that feed.
fn feed_table(forms: &[Form]) {
    let forms: Vec<&Form> = forms.iter().filter(|f| f.feeds.is_some()).collect();
    print_head("Octet", &forms, "ns");
    for (name, chunks) in chunks::rows() {
        let octets = chunks.octets().len() as f64;
        print_row(name, &best_of(&Asked::Feed(chunks), &forms), octets);
    }
}

fn print_head(what: &str, forms: &[&Form], unit: &str) {
    let names: Vec<&str> = forms.iter().map(|f| f.name).chain(["copy"]).collect();
    print!("| {what} |");
    for name in &names {
        print!(" {name}, {unit} |");
    }
    for name in &names[1..] {
        print!(" {} / {name} |", names[0]);
    }
    println!("\n|---|{}", "---:|".repeat(2 * names.len() - 1));
}

fn print_row(name: &str, best: &[f64], unit: f64) {
    print!("| {name} |");
    for ns in best {
        print!(" {:.2} |", ns / unit);
    }
    for other in &best[1..] {
        print!(" {:.3} |", best[0] / other);
    }
    println!();
}

/// Of each form, and at last of the copy.
fn best_of(asked: &Asked, forms: &[&Form]) -> Vec<f64> {
    let mut contenders: Vec<Contender> = forms.iter().filter_map(|f| asked.of(f)).collect();
    contenders.push(asked.copier());
    best(&mut contenders)
}

/// How many calls fill about a round.
fn calls_in_round(contender: &mut Contender) -> u32 {
    let mut calls = 1;
    loop {
        let took = time(contender, calls);
        if took >= ROUND / 4 {
            let each = took / calls;
            return (ROUND.as_nanos() / each.as_nanos().max(1)) as u32 + 1;
        }
        calls *= 2;
    }
}

fn time(contender: &mut Contender, calls: u32) -> Duration {
    let begin = Instant::now();
    for _ in 0..calls {
        contender();
    }
    begin.elapsed()
}

/// Nanoseconds a call: of each contender its best round, for what else the
/// machine does only adds. Rounds are short and take turns, so that some of
/// each meet a quiet moment.
fn best(contenders: &mut [Contender]) -> Vec<f64> {
    let calls: Vec<u32> = contenders.iter_mut().map(calls_in_round).collect();
    let mut best = vec![f64::INFINITY; contenders.len()];
    for _ in 0..ROUNDS {
        for (i, contender) in contenders.iter_mut().enumerate() {
            let took = time(contender, calls[i]);
            best[i] = best[i].min(took.as_nanos() as f64 / f64::from(calls[i]));
        }
    }
    best
}
