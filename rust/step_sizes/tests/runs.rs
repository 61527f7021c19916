//! Runs through the station, held to figures computed without it.

mod common;
#[path = "../../plots/tests/shared/second.rs"]
mod second;

use common::{given, loud, runs, silent, with_line, EXAMPLE, WORKED};
use harness::sides::{Operations, Second};
use plots::block::{weights, Heard};
use plots::power::ErrorPower;
use step_sizes::run::{joined, trace, Ran, Run};
use step_sizes::text::Given;
use step_sizes::{summary, table};
use tigbulode::{Block, Equaliser};
use tigbulode_laboratory::{Power, Reading};
use traces::trace::{Sample, Trace};

/// The figures of the worked example in docs/EQUALISER.md.
#[test]
fn the_worked_example_comes_out() {
    let given = given(WORKED);
    let runs = runs(&given);
    let second = 264_241_152.0 / f64::from(1 << 28);
    let ran = |error: f64, decided, weights: [f64; 2]| Ran {
        heard: Heard {
            readings: vec![Reading { y: 1.0 - error, error }],
            decisions: vec![1],
            error_power: ErrorPower::of_block(Power::Mean(error * error)),
        },
        decided,
        wrong: 0,
        psi: 0,
        weights: weights.map(|weight| weight / 32768.0).to_vec(),
    };
    assert_eq!(runs[0].blocks, [ran(1.0, 0, [1024.0, 0.0]), ran(second, 1, [2032.0, 2016.0])]);
    assert_eq!(runs[0].stopped, None);
    let rows = "\
1,67108864,1.000000,0,0,0,1e0,mean,0.000,0,0,0,0.03125,0,0.03125,0
1,67108864,1.000000,1,1,0,9.68994140625e-1,mean,-0.137,1,0,0,0.06201171875,0.0615234375,0.06201171875,0.0615234375
";
    assert!(table::csv(&given, &runs).ends_with(rows));
    let rows = "\
step,block,sample,sent,known,decision,y (symbol units),error (symbol units)
1,0,0,1,1,1,0,1
1,1,1,1,0,1,0.015625,0.984375
";
    assert_eq!(table::readings(&given, &runs), rows);
}

/// A wrong decision is counted: without a weight every output is 0, so every decision is 1.
#[test]
fn wrong_decisions_are_counted_after_training_alone() {
    let text = with_line(&with_line(WORKED, 3, "N = 2"), 7, "symbols = -1 1 -1 -1 1 -1");
    let counts = |training: usize| {
        let text = with_line(&with_line(&text, 9, "M = 0"), 8, &format!("training = {training}"));
        let run = runs(&given(&text)).remove(0);
        assert_eq!(run.decided(), 6 - training);
        run.blocks.iter().map(|block| (block.decided, block.wrong)).collect::<Vec<_>>()
    };
    assert_eq!(counts(0), [(2, 1), (2, 2), (2, 1)]);
    assert_eq!(counts(3), [(0, 0), (1, 1), (2, 1)]);
    assert_eq!(counts(6), [(0, 0), (0, 0), (0, 0)]);
}

/// A block by the second implementation.
fn block_by_second(record: &mut Equaliser, part: &[Sample], sent: &[i8]) -> Ran {
    let samples: Vec<i16> = part.iter().map(|x| x.m).collect();
    let gains: Vec<u8> = part.iter().map(|x| x.g).collect();
    let entries: Vec<i8> = part.iter().map(|x| x.entry).collect();
    let block = Block { samples: &samples, gains: &gains, entries: &entries };
    let heard = second::run(record, block).expect("accepted");
    let decided: Vec<usize> = (0..part.len()).filter(|at| entries[*at] == 0).collect();
    let wrong = decided.iter().filter(|at| heard.decisions[**at] != sent[**at]).count();
    Ran { heard, decided: decided.len(), wrong, psi: record.psi, weights: weights(record) }
}

fn by_second(given: &Given, trace: &Trace) -> Vec<Ran> {
    let mut record = Second.set_up(trace.settings).state;
    let n = usize::from(trace.settings.n);
    let blocks = trace.samples.chunks(n).zip(given.symbols.chunks(n));
    blocks.map(|(part, sent)| block_by_second(&mut record, part, sent)).collect()
}

#[test]
fn every_block_is_as_the_second_implementation_runs_it() {
    for text in [EXAMPLE, &loud(), &silent()] {
        let given = given(text);
        for run in runs(&given) {
            let mut trace = trace(&given, run.step.m).expect("it is accepted");
            assert!(run.stopped.is_none() && run.blocks == by_second(&given, &trace), "{}", run.step.name);
            // one symbol known otherwise is seen
            trace.samples[5].entry *= -1;
            assert!(run.blocks != by_second(&given, &trace), "{}", run.step.name);
        }
    }
}

#[test]
fn a_floor_and_a_power_of_0_are_told_in_the_table_and_the_summary() {
    let described = given(&loud());
    let ran = runs(&described);
    let csv = table::csv(&described, &ran);
    let floors: Vec<&str> = csv.lines().filter(|line| line.contains(",floor,")).collect();
    assert_eq!(floors.len(), 1);
    assert!(floors[0].starts_with("2,699050,1.000000,300,9600,0,5.69312083864212e3,floor,37.554,"));
    let told = summary::summary(&described, &ran);
    assert!(told.contains("over the last 31 blocks 21.9 dB; ψ"), "{told}");
    assert!(told.contains("over the last 31 blocks at least 23.0 dB (a floor); ψ"), "{told}");
    let described = given(&silent());
    let ran = runs(&described);
    let last = &ran[0].blocks.last().expect("a block").heard;
    let small = |reading: &Reading| reading.error != 0.0 && reading.error.abs() < 1.0 / 256.0;
    assert!(last.error_power.is_zero() && last.readings.iter().all(small));
    let csv = table::csv(&described, &ran);
    assert!(csv.lines().last().expect("a row").contains(",0e0,mean,-100.000,"));
    let told = summary::summary(&described, &ran);
    assert!(told.contains("error power over the last 2 blocks below −48.1 dB; ψ"), "{told}");
}

fn numbers(row: &str) -> Vec<f64> {
    row.split(',').filter_map(|word| word.parse().ok()).collect()
}

/// Whether a decimal is a number, a multiple of 2^-29, in all its digits: both in units of 10^-29.
fn is_exact(word: &str, number: f64) -> bool {
    let (whole, decimals) = word.split_once('.').unwrap_or((word, ""));
    let units: i128 = format!("{whole}{decimals:0<29}").parse().expect("a number");
    units == (number * f64::from(1 << 29)) as i128 * 5i128.pow(29)
}

#[test]
fn every_sample_and_every_weight_is_exact() {
    let given = given(EXAMPLE);
    let runs = runs(&given);
    let csv = table::readings(&given, &runs);
    let (mut rows, mut shortened) = (csv.lines().skip(1), 0);
    for (place, run) in runs.iter().enumerate() {
        let samples = run.blocks.iter().flat_map(|ran| ran.heard.readings.iter().zip(&ran.heard.decisions));
        for (sample, (reading, decision)) in samples.enumerate() {
            let (known, sent) = (sample < given.training, f64::from(given.symbols[sample]));
            let start = [place + 1, sample / 32, sample].map(|count| count as f64);
            let rest = [sent, u8::from(known).into(), (*decision).into(), reading.y, reading.error];
            let line = rows.next().expect("a row");
            let row = numbers(line);
            assert_eq!(row, [&start[..], &rest].concat());
            for (word, number) in line.split(',').zip(&row).skip(6) {
                let shortest = number.to_string();
                assert!(is_exact(word, *number) && is_exact(&shortest, *number) == (shortest == word), "{line}");
                shortened += u32::from(shortest != word);
            }
            let aim = if known { sent } else { rest[2] };
            assert!((aim - row[6] - row[7]).abs() < 1e-6, "{row:?}");
        }
    }
    assert!(rows.next().is_none() && shortened > 10_000, "{shortened}");
    let csv = table::csv(&given, &runs);
    assert!(csv.lines().all(|line| line.split(',').count() == 20) && csv.lines().count() == 1 + 3 * 300);
    assert!(csv.lines().last().expect("a row").starts_with("3,2097152,1.000000,299,9568,0,"));
    let rows = csv.lines().skip(1).map(|line| numbers(line)[13..].to_vec());
    let blocks = runs.iter().flat_map(|run| &run.blocks).map(|block| block.weights.clone());
    assert!(rows.eq(blocks));
}

/// What the example is there to show; within reach of the taps, or without the echo, the greatest step is the best.
#[test]
fn one_step_is_too_slow_one_is_right_and_one_is_at_the_limit() {
    let given = given(EXAMPLE);
    let runs = runs(&given);
    assert_eq!(runs.iter().map(Run::wrong).collect::<Vec<_>>(), [3763, 0, 94]);
    assert!(runs.iter().all(|run| run.decided() == 6400));
    assert_eq!(runs[2].step.m, given.settings.greatest_m());
    let before_end = |run: &Run| joined(&run.blocks[90..100]).map(ErrorPower::decibels);
    let trained: Vec<f64> = runs.iter().filter_map(before_end).collect();
    assert!(trained[0] > 0.0 && trained[1] < -6.0 && trained[2] < -6.0, "{trained:?}");
    let end = |run: &Run| run.last_error_power().map(ErrorPower::decibels);
    assert!(end(&runs[1]) < end(&runs[2]));
    for other in [EXAMPLE.replace("-0.01 0 0 0 0.04", "-0.01"), EXAMPLE.replace("q = 4", "q = 8")] {
        let runs = common::runs(&common::given(&other));
        assert!(runs[2].wrong() == 0 && end(&runs[2]) < end(&runs[1]) && end(&runs[1]) < end(&runs[0]));
    }
}

#[test]
fn a_block_that_is_turned_down_is_told() {
    let given = given(&with_line(WORKED, 7, "symbols = 1 1 1 1"));
    let mut runs = runs(&given);
    runs[0].blocks.truncate(2);
    runs[0].stopped = Some(6);
    let csv = table::csv(&given, &runs);
    assert_eq!(csv.lines().last(), Some("1,67108864,1.000000,2,2,6,,,,,,,,,,"));
    let told = "block 2 turned down with 6, the weights' exponent would rise to 16; ";
    assert!(summary::summary(&given, &runs).contains(&format!("; {told}error power")));
    let page = step_sizes::page::page(&given, &runs, "a");
    assert!(page.lines.contains(&format!("M = 67108864: {told}it ends there")));
}

#[test]
fn the_summary_has_a_line_for_each_step_size() {
    let described = given(EXAMPLE);
    let summary = summary::summary(&described, &runs(&described));
    assert_eq!(summary.lines().count(), 4 + 3);
    let shown = [
        "response 0.4 −0.07 −0.02 0.02 −0.01 0 0 0 0.04, no noise",
        "9600 symbols, random from seed 1; training on the first 3200; least gain 0 (L)",
        "share 1/4: M = 524288, 0.250000 of the greatest: wrong decisions after training 0 of 6400 (0 %); \
         error power over the last 30 blocks −6.8 dB; ψ 3; feed forward weights 2.4765625 0.046875; \
         feedback weights 0.15087890625 0.05078125 −0.058349609375 0.016845703125",
    ];
    assert!(shown.iter().all(|line| summary.lines().any(|found| found == *line)), "{summary}");
    let response = |line: &str| summary::cable(&given(&with_line(WORKED, 6, line)))[1].clone();
    let long = response(&("response = ".to_string() + &"-800 ".repeat(32)));
    assert!(long.starts_with("response −0.0244 −0.0244 ") && long.ends_with(" more, no noise"), "{long}");
    assert!((100..=115).contains(&long.chars().count()), "{long}");
    let ends = response("response = -32767 1 -1 0 16384");
    assert_eq!(ends, "response −0.99997 0.00003 −0.00003 0 0.5, no noise");
}
