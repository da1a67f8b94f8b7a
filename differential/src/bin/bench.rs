//! Times the library's checking call beside the oracle's six rules on the oracle's fixed images, and
//! its call for a batch beside single calls. Usage: bench [COUNT]
//!
//! The oracle is timed as its own benchmark does it: models that are already in its structures. The
//! library's time includes reading the image.

use std::fmt::Write;
use std::hint::black_box;
use std::ops::Range;
use std::process::ExitCode;
use std::time::{Duration, Instant};

use differential::heavy;
use oracle::bench::{RUNS, SEED, asked, image, measure};
use oracle::format::{DIAGNOSTIC_LEN, MAX_IMAGE};
use oracle::generator::{LIMIT_CASES, limit_case};
use oracle::random::Random;
use oracle::reader::read;
use oracle::{tool, validate};

/// The table of sizes has a row for each so many bytes.
const STEP: usize = 8_192;
/// Room for the longest report.
const REPORT_ROOM: usize = 1 << 19;
/// Draws of each case at a limit.
const LIMIT_DRAWS: u64 = 20;
/// Batches are made of so many of the first images, many and those of a shift, and each way to check
/// them is run so often: a multiple of the number of ways.
const BATCHES: [(u64, usize); 2] = [(1_000, 15), (40, 150)];

#[derive(Clone, Copy)]
struct Times {
    first: Duration,
    least: Duration,
}

/// What was measured of one image.
struct Measured {
    bytes: usize,
    with_errors: bool,
    oracle: Times,
    library: Times,
}

struct Buffers {
    filled: Vec<u8>,
    report: Vec<u8>,
}

fn main() -> ExitCode {
    tool::run("bench", |arguments| {
        let count = asked(arguments)?;
        let mut buffers = Buffers {
            filled: vec![0; MAX_IMAGE],
            report: vec![0; REPORT_ROOM],
        };
        let mut all = Vec::new();
        for index in 0..count {
            all.push(measure_both(index, &mut buffers)?);
        }
        let mut out = tables(&all);
        heavy_table(&mut out, &mut buffers)?;
        let _ = writeln!(
            out,
            "\nImages at the format's limits: {}",
            limits(&mut buffers)
        );
        batch_table(&mut out, count, &mut buffers)?;
        Ok(out.into_bytes())
    })
}

/// One image, first by the oracle, then by the library.
fn measure_both(index: u64, buffers: &mut Buffers) -> Result<Measured, String> {
    let oracle = measure(index);
    let image = image(index);
    let (library, checked) = time(&image, buffers);
    let checked = checked.map_err(|refusal| format!("image {index}: {refusal}"))?;
    if checked.diagnostics() != oracle.diagnostics || (checked.errors > 0) != oracle.with_errors {
        return Err(format!("image {index}: the library reports something else"));
    }
    Ok(Measured {
        bytes: image.len(),
        with_errors: oracle.with_errors,
        oracle: Times {
            first: oracle.first,
            least: oracle.least,
        },
        library,
    })
}

/// The whole call, reading included, as often as the oracle is run.
fn time(image: &[u8], buffers: &mut Buffers) -> (Times, Result<oce::Checked, oce::Refusal>) {
    let mut times = [Duration::ZERO; RUNS];
    let mut answer = Err(oce::Refusal::Size);
    for time in &mut times {
        let start = Instant::now();
        answer = black_box(oce::check(
            black_box(image),
            &mut buffers.filled,
            &mut buffers.report,
        ));
        *time = start.elapsed();
    }
    let least = times.iter().min().copied().unwrap_or_default();
    let times = Times {
        first: times[0],
        least,
    };
    (times, answer)
}

/// A batch, the bytes that its output needs, and where its images stand.
struct Batch {
    bytes: Vec<u8>,
    output: Vec<u8>,
    images: Vec<Range<usize>>,
}

impl Batch {
    fn of_first(count: u64) -> Result<Self, String> {
        let (mut bytes, mut images) = (Vec::new(), Vec::new());
        for index in 0..count {
            let image = image(index);
            oce::push_image(&mut bytes, &image).map_err(|e| format!("image {index}: {e}"))?;
            images.push(bytes.len() - image.len()..bytes.len());
        }
        match oce::check_batch(&bytes, &mut []) {
            Err(oce::BatchRefusal::OutputShort { needed }) => Ok(Self {
                bytes,
                output: vec![0; needed],
                images,
            }),
            other => Err(format!("no output asked for: {other:?}")),
        }
    }

    /// Check all images one way; how many diagnostics they have.
    fn check(&mut self, way: Way, buffers: &mut Buffers) -> Result<usize, String> {
        let Buffers { filled, report } = buffers;
        let fault = |refusal: oce::Refusal| refusal.to_string();
        if let Way::Batch = way {
            oce::check_batch(black_box(&self.bytes), &mut self.output)
                .map_err(|refusal| refusal.to_string())?;
            let bytes = self.output.len() - oce::SUMMARY_SIZE * self.images.len();
            return Ok(bytes / DIAGNOSTIC_LEN);
        }
        let mut diagnostics = 0;
        for at in &self.images {
            let image = black_box(&self.bytes[at.clone()]);
            let room = match way {
                Way::RoomAtOnce => report.len(),
                _ => 0,
            };
            let checked = match oce::check(image, filled, &mut report[..room]) {
                Err(oce::Refusal::ReportShort { needed }) => {
                    let report = &mut report[..needed as usize];
                    black_box(oce::check(image, filled, report)).map_err(fault)?
                }
                other => black_box(other).map_err(fault)?,
            };
            diagnostics += checked.diagnostics();
        }
        Ok(diagnostics)
    }
}

/// A way to check the images of a batch.
#[derive(Clone, Copy)]
enum Way {
    /// In one call, with an output of the exact length.
    Batch,
    /// One by one: without room for a report, then with the bytes needed where there is one.
    LengthAsked,
    /// One by one, with room for the longest report.
    RoomAtOnce,
}

const WAYS: [Way; 3] = [Way::Batch, Way::LengthAsked, Way::RoomAtOnce];

/// Images in one call beside single calls for the same images. The ways take turns, each as often
/// first as the others.
fn batch_table(out: &mut String, count: u64, buffers: &mut Buffers) -> Result<(), String> {
    let _ = write!(
        out,
        "\nA batch: the first images in one call with an output of the exact length, beside single calls for the same: \
         without room for a report and then with the bytes needed, and with room at once. Milliseconds for all images; \
         the three take turns. Ratio is the batch's time to the single calls'.\n\n\
         | images | diagnostics | runs | batch | length asked | ratio | room at once | ratio |\n\
         |---|---|---|---|---|---|---|---|\n"
    );
    for (images, runs) in BATCHES {
        let images = images.min(count);
        let mut batch = Batch::of_first(images)?;
        let mut times = WAYS.map(|_| Vec::new());
        let mut diagnostics = None;
        for run in 0..runs {
            for turn in 0..WAYS.len() {
                let which = (run + turn) % WAYS.len();
                let start = Instant::now();
                let found = batch.check(WAYS[which], buffers)?;
                times[which].push(start.elapsed());
                if *diagnostics.get_or_insert(found) != found {
                    return Err("a batch has other diagnostics than its images".to_owned());
                }
            }
        }
        let first = times.each_ref().map(|t| t[0]);
        times.iter_mut().for_each(|t| t.sort());
        let least = times.each_ref().map(|t| t[0]);
        let median = times.each_ref().map(|t| t[runs / 2]);
        for (name, times) in [("least", least), ("median", median), ("first", first)] {
            let [batch, asked, room] = times.map(|t| t.as_secs_f64() * 1e3);
            let _ = writeln!(
                out,
                "| {images} | {} | {name} of {runs} | {batch:.3} | {asked:.3} | {:.3} | {room:.3} | {:.3} |",
                diagnostics.unwrap_or_default(),
                batch / asked,
                batch / room
            );
        }
    }
    Ok(())
}

/// Images that are built to be slow, by the oracle and by the library.
fn heavy_table(out: &mut String, buffers: &mut Buffers) -> Result<(), String> {
    let _ = write!(
        out,
        "\nImages that are built to be slow, microseconds, least of {RUNS} runs.\n\n\
         | image | bytes | diagnostics | oracle | library |\n|---|---|---|---|---|\n"
    );
    for (name, image) in heavy::images() {
        let accepted = read(&image).map_err(|r| format!("{name}: refused {}", r.number))?;
        let mut oracle = Duration::MAX;
        let mut diagnostics = 0;
        for _ in 0..RUNS {
            let mut model = accepted.model.clone();
            let start = Instant::now();
            let diags = validate(&mut model);
            oracle = oracle.min(start.elapsed());
            diagnostics = diags.len();
        }
        let (library, checked) = time(&image, buffers);
        if checked.map(oce::Checked::diagnostics) != Ok(diagnostics) {
            return Err(format!("{name}: the library reports something else"));
        }
        let _ = writeln!(
            out,
            "| {name} | {} | {diagnostics} | {:.2} | {:.2} |",
            image.len(),
            micro(oracle),
            micro(library.least)
        );
    }
    Ok(())
}

/// The slowest of the images that stand at or one beyond a limit of the format.
fn limits(buffers: &mut Buffers) -> String {
    let (mut slowest, mut called) = ((Duration::ZERO, 0, 0, 0), 0);
    for number in 0..LIMIT_CASES {
        for draw in 0..LIMIT_DRAWS {
            let image = limit_case(&mut Random::new(SEED, draw), number);
            let (times, answer) = time(&image, buffers);
            called += 1;
            let diagnostics = answer.map_or(0, oce::Checked::diagnostics);
            slowest = slowest.max((times.least, image.len(), diagnostics, number));
        }
    }
    let (least, bytes, diagnostics, _) = slowest;
    format!(
        "{called}, the slowest {:.2} microseconds (least of {RUNS}; {bytes} bytes, {diagnostics} diagnostics, \
         {} report bytes)",
        micro(least),
        diagnostics * DIAGNOSTIC_LEN
    )
}

fn tables(all: &[Measured]) -> String {
    let bytes: usize = all.iter().map(|m| m.bytes).sum();
    let mut out = format!(
        "seed {SEED}, images {}, bytes {bytes}, {RUNS} runs of each image\n\n\
         Sums in milliseconds; ratio is the library's time to the oracle's.\n\n\
         | images | count | oracle, least | library, least | ratio | oracle, first | library, first | ratio |\n\
         |---|---|---|---|---|---|---|---|\n",
        all.len()
    );
    let every: Vec<&Measured> = all.iter().collect();
    let half = |errors: bool| -> Vec<&Measured> {
        all.iter().filter(|m| m.with_errors == errors).collect()
    };
    let parts = [
        ("all", every.clone()),
        ("without errors", half(false)),
        ("with errors", half(true)),
    ];
    for (name, part) in &parts {
        sum_row(&mut out, name, part);
    }
    let _ = write!(
        out,
        "\nMicroseconds for an image, least of {RUNS} runs.\n\n\
         | images | count | which | least | median | 99 of 100 | greatest |\n|---|---|---|---|---|---|---|\n"
    );
    for (name, part) in &parts {
        spread_rows(&mut out, name, part);
    }
    let _ = write!(
        out,
        "\nBy size of the image.\n\n\
         | bytes | count | which | least | median | 99 of 100 | greatest |\n|---|---|---|---|---|---|---|\n"
    );
    for low in (0..=MAX_IMAGE).step_by(STEP) {
        let sizes = low..low + STEP;
        let part: Vec<&Measured> = all.iter().filter(|m| sizes.contains(&m.bytes)).collect();
        spread_rows(&mut out, &format!("{low} to {}", low + STEP - 1), &part);
    }
    out
}

fn sum_row(out: &mut String, name: &str, part: &[&Measured]) {
    let sum = |time: fn(&Measured) -> Duration| -> f64 {
        part.iter().map(|m| time(m)).sum::<Duration>().as_secs_f64() * 1e3
    };
    let least = (sum(|m| m.oracle.least), sum(|m| m.library.least));
    let first = (sum(|m| m.oracle.first), sum(|m| m.library.first));
    let _ = writeln!(
        out,
        "| {name} | {} | {:.1} | {:.1} | {:.3} | {:.1} | {:.1} | {:.3} |",
        part.len(),
        least.0,
        least.1,
        least.1 / least.0,
        first.0,
        first.1,
        first.1 / first.0
    );
}

/// A row for each of the two, then one for the ratio of single images.
fn spread_rows(out: &mut String, name: &str, part: &[&Measured]) {
    if part.is_empty() {
        return;
    }
    let oracle = part.iter().map(|m| micro(m.oracle.least));
    let library = part.iter().map(|m| micro(m.library.least));
    let ratio = oracle.clone().zip(library.clone()).map(|(o, l)| l / o);
    let count = part.len();
    spread_row(
        out,
        &format!("{name} | {count} | oracle"),
        oracle.collect(),
        2,
    );
    spread_row(out, "| | library", library.collect(), 2);
    spread_row(out, "| | ratio", ratio.collect(), 3);
}

fn spread_row(out: &mut String, name: &str, mut values: Vec<f64>, digits: usize) {
    values.sort_by(f64::total_cmp);
    let at = |part: usize| values[(values.len() - 1) * part / 100];
    let _ = writeln!(
        out,
        "| {name} | {:.digits$} | {:.digits$} | {:.digits$} | {:.digits$} |",
        at(0),
        at(50),
        at(99),
        at(100)
    );
}

fn micro(time: Duration) -> f64 {
    time.as_secs_f64() * 1e6
}
