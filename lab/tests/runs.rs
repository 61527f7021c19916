//! Runs through the station, held to figures computed without it.

mod common;

use common::{falling, given, loud, runs, silent, with_line, EXAMPLE, WORKED};
use lab::cable::traces;
use lab::run::{joined, OutputLists, Ran, Run};
use lab::text::Given;
use lab::{readings, summary, table};
use reference::readings as second;
use reference::{Inputs, Outputs, State};
use tigbulode::sides::settings_of;
use tigbulode_laboratory::{Power, Reading};
use traces::trace::{Sample, Trace};
use years::power::ErrorPower;
use years::words::decibels;

/// What a block hands out, with these errors.
fn handed(z: &[i32], theta: &[u8]) -> OutputLists {
    OutputLists {
        y: vec![0; z.len()],
        xi: vec![1; z.len()],
        decision: vec![1; z.len()],
        z: z.to_vec(),
        theta: theta.to_vec(),
    }
}

#[test]
fn error_power_is_the_mean_of_squares_of_errors_cut_to_256ths() {
    let power = |z: &[i32], theta: &[u8]| handed(z, theta).read().expect("read").1.power;
    assert_eq!(power(&[1 << 28], &[2]), Power::Mean(1.0));
    assert_eq!(power(&[-(1 << 28), 0], &[2, 24]), Power::Mean(0.5));
    let errors = [3 << 20, -(1 << 20)];
    assert_eq!(power(&errors, &[10, 11]), Power::Mean((9.0 + 4.0) / 2.0));
    assert_eq!(power(&[0, 0], &[5, 5]), Power::Mean(0.0));
    // just below 1/256, just below 2/256, just below 256, and 256 itself
    assert_eq!(power(&[(1 << 20) - 1], &[2]), Power::Mean(0.0));
    assert_eq!(power(&[-(1 << 21) + 1], &[2]), Power::Mean(1.0 / 65536.0));
    let most = 65535.0f64 * 65535.0 / 65536.0;
    assert_eq!(power(&[(1 << 29) - 1], &[9]), Power::Mean(most));
    assert_eq!(power(&[-(1 << 29)], &[9]), Power::Floor(most));
}

#[test]
fn what_cannot_be_read_is_an_internal_error() {
    for theta in [0, 25] {
        let told = handed(&[1], &[theta]).read().expect_err("turned down");
        assert!(
            told.starts_with("internal error: ") && told.contains(" with 11 "),
            "{told}"
        );
    }
}

#[test]
fn decibels_end_at_100_below() {
    assert_eq!(decibels(1.0), 0.0);
    assert_eq!(decibels(100.0), 20.0);
    assert!((decibels(0.5) + 3.0103).abs() < 1e-4);
    assert_eq!(decibels(0.0), -100.0);
    assert_eq!(decibels(1e-30), -100.0);
}

/// The figures of the worked example in docs/EQUALISER.md.
#[test]
fn the_worked_example_comes_out() {
    let given = given(WORKED);
    let runs = runs(&given);
    let unit = 1.0 / 32768.0;
    let second = 264_241_152.0 / f64::from(1 << 28);
    let ran = |error: f64, decided, weights: [f64; 2]| Ran {
        readings: vec![Reading {
            y: 1.0 - error,
            error,
        }],
        decisions: vec![1],
        error_power: ErrorPower::of_block(Power::Mean(error * error)),
        decided,
        wrong: 0,
        psi: 0,
        weights: weights.map(|weight| weight * unit).to_vec(),
    };
    let first = ran(1.0, 0, [1024.0, 0.0]);
    let blocks = vec![first, ran(second, 1, [2032.0, 2016.0])];
    assert_eq!(runs[0].blocks, blocks);
    assert_eq!(runs[0].stopped, None);
    let rows = "\
1,67108864,1.000000,0,0,0,1e0,mean,0.000,0,0,0,0.031250,0.000000,0.031250,0.000000
1,67108864,1.000000,1,1,0,9.68994140625e-1,mean,-0.137,1,0,0,0.062012,0.061523,0.062012,0.061523
";
    assert!(table::csv(&given, &runs).ends_with(rows));
    let rows = "\
step,block,sample,sent,known,decision,y (symbol units),error (symbol units)
1,0,0,1,1,1,0,1
1,1,1,1,0,1,0.015625,0.984375
";
    assert_eq!(readings::csv(&given, &runs), rows);
}

/// A wrong decision is counted: without a weight every output is 0, so every
/// decision is 1.
#[test]
fn wrong_decisions_are_counted_after_training_alone() {
    let text = with_line(WORKED, 3, "N = 2");
    let text = with_line(&text, 7, "symbols = -1 1 -1 -1 1 -1");
    let text = with_line(&text, 9, "M = 0");
    let counts = |training: usize| {
        let text = with_line(&text, 8, &format!("training = {training}"));
        let run = runs(&given(&text)).remove(0);
        let counts: Vec<_> = run.blocks.iter().map(|b| (b.decided, b.wrong)).collect();
        assert_eq!(run.decided(), 6 - training);
        counts
    };
    assert_eq!(counts(0), [(2, 1), (2, 2), (2, 1)]);
    assert_eq!(counts(3), [(0, 0), (1, 1), (2, 1)]);
    assert_eq!(counts(6), [(0, 0), (0, 0), (0, 0)]);
}

/// The readings and the error power by the second implementation.
fn read_by_reference(out: &Outputs) -> (Vec<Reading>, ErrorPower) {
    let handed = second::ReadingInputs {
        y: &out.y,
        xi: &out.xi,
        z: &out.z,
        theta: &out.theta,
    };
    let mut lent = vec![second::Reading::default(); out.y.len()];
    let power = match second::readings(&handed, &mut lent).expect("read") {
        second::Power::Mean(value) => Power::Mean(value),
        second::Power::Floor(value) => Power::Floor(value),
    };
    let readings = lent
        .into_iter()
        .map(|second::Reading { y, error }| Reading { y, error });
    (readings.collect(), ErrorPower::of_block(power))
}

/// A block by the second implementation.
fn block_by_reference(state: &mut State, part: &[Sample], sent: &[i8]) -> Ran {
    let samples: Vec<i16> = part.iter().map(|x| x.m).collect();
    let gains: Vec<u8> = part.iter().map(|x| x.g).collect();
    let training: Vec<i8> = part.iter().map(|x| x.entry).collect();
    let inputs = Inputs {
        samples: &samples,
        gains: &gains,
        training: &training,
    };
    let n = part.len();
    let mut out = Outputs::zeros(n);
    assert_eq!(reference::run(state, inputs, &mut out), 0);
    let (readings, error_power) = read_by_reference(&out);
    let decided: Vec<usize> = (0..n).filter(|i| training[*i] == 0).collect();
    let wrong = decided.iter().filter(|i| out.decision[**i] != sent[**i]);
    let unit = 2f64.powi(i32::from(state.psi) - 15);
    Ran {
        readings,
        error_power,
        decided: decided.len(),
        wrong: wrong.count(),
        decisions: out.decision.clone(),
        psi: state.psi,
        weights: state.weights.iter().map(|w| f64::from(*w) * unit).collect(),
    }
}

/// Every block of a run by the second implementation.
fn by_reference(given: &Given, trace: &Trace) -> Vec<Ran> {
    let s = given.sizes(trace.settings.m);
    let settings = settings_of(&s.set_up().state);
    let (number, mut state) = reference::set_up(settings);
    assert_eq!(number, 0);
    let n = usize::from(s.n);
    let sent = given.symbols.plain();
    let blocks = trace.samples.chunks(n).zip(sent.chunks(n));
    blocks
        .map(|(part, sent)| block_by_reference(&mut state, part, sent))
        .collect()
}

#[test]
fn the_example_is_run_as_the_second_implementation_runs_it() {
    let given = given(EXAMPLE);
    let made = traces(&given).expect("it is accepted");
    for ((_, bytes), run) in made.iter().zip(runs(&given)) {
        let mut trace = Trace::of_bytes(bytes).expect("a trace");
        assert_eq!(run.blocks, by_reference(&given, &trace));
        assert_eq!(run.stopped, None);
        // one sample heard otherwise is seen
        trace.samples[5000].m ^= 1 << 12;
        assert_ne!(run.blocks, by_reference(&given, &trace));
    }
}

#[test]
fn an_exponent_that_falls_does_so_as_in_the_second_implementation() {
    let given = given(&falling());
    let made = traces(&given).expect("it is accepted");
    let trace = Trace::of_bytes(&made[0].1).expect("a trace");
    let blocks = &runs(&given)[0].blocks;
    assert_eq!(*blocks, by_reference(&given, &trace));
    let most = blocks.iter().map(|block| block.psi).max();
    let last = blocks.last().map(|block| block.psi);
    assert_eq!((most, last), (Some(4), Some(3)));
}

#[test]
fn a_cable_that_turns_loud_brings_a_floor() {
    let given = given(&loud());
    let runs = runs(&given);
    let made = traces(&given).expect("it is accepted");
    for ((_, bytes), run) in made.iter().zip(&runs) {
        let trace = Trace::of_bytes(bytes).expect("a trace");
        assert_eq!(run.blocks, by_reference(&given, &trace));
    }
    let floors = |run: &Run| {
        let blocks = run.blocks.iter().enumerate();
        let floors = blocks.filter(|(_, block)| block.error_power.is_floor());
        floors.map(|(place, _)| place).collect::<Vec<_>>()
    };
    assert_eq!((floors(&runs[0]), floors(&runs[1])), (vec![], vec![300]));
    let csv = table::csv(&given, &runs);
    let told = csv.lines().filter(|line| line.contains(",floor,"));
    let told: Vec<&str> = told.collect();
    assert_eq!(told.len(), 1);
    assert!(told[0].starts_with("2,699050,1.000000,300,9600,0,5.69312083864212e3,floor,37.554,"));
    let summary = summary::summary(&given, &runs);
    let ends = [
        "over the last 31 blocks 21.9 dB (1.5621e2); ψ",
        "over the last 31 blocks at least 23.0 dB (a floor); ψ",
    ];
    for (line, end) in summary.lines().skip(4).zip(ends) {
        assert!(line.contains(end), "{line}");
    }
}

#[test]
fn errors_below_1_256th_are_told_as_a_power_of_0() {
    let given = given(&silent());
    let runs = runs(&given);
    let last = runs[0].blocks.last().expect("a block");
    let small = |reading: &Reading| reading.error != 0.0 && reading.error.abs() < 1.0 / 256.0;
    assert!(last.error_power.is_zero() && last.readings.iter().all(small));
    let csv = table::csv(&given, &runs);
    let row = csv.lines().last().expect("a row");
    assert!(row.contains(",0e0,mean,-100.000,"), "{row}");
    let summary = summary::summary(&given, &runs);
    let words = "error power over the last 2 blocks below −48.1 dB; ψ";
    assert!(summary.contains(words), "{summary}");
}

/// A row of readings.csv as numbers.
fn numbers(row: &str) -> Vec<f64> {
    let words = row.split(',');
    words.map(|word| word.parse().expect("a number")).collect()
}

#[test]
fn every_sample_has_a_row_whose_numbers_read_back_exactly() {
    let given = given(EXAMPLE);
    let runs = runs(&given);
    let csv = readings::csv(&given, &runs);
    let sent = given.symbols.plain();
    let mut rows = csv.lines().skip(1);
    for (place, run) in runs.iter().enumerate() {
        let samples = run
            .blocks
            .iter()
            .flat_map(|ran| ran.readings.iter().zip(&ran.decisions));
        for (sample, (reading, decision)) in samples.enumerate() {
            let known = sample < given.training.value;
            let wanted = [
                (place + 1) as f64,
                (sample / 32) as f64,
                sample as f64,
                sent[sample].into(),
                u8::from(known).into(),
                (*decision).into(),
                reading.y,
                reading.error,
            ];
            let row = numbers(rows.next().expect("a row"));
            assert_eq!(row, wanted);
            let aim = if known { sent[sample] } else { *decision };
            let cut = f64::from(aim) - row[6] - row[7];
            assert!(cut.abs() < 1e-6, "{row:?}");
        }
    }
    assert_eq!(rows.next(), None);
}

/// What the example is there to show.
#[test]
fn one_step_is_too_slow_one_is_right_and_one_is_at_the_limit() {
    let given = given(EXAMPLE);
    let runs = runs(&given);
    let wrong: Vec<usize> = runs.iter().map(Run::wrong).collect();
    assert_eq!(wrong, [3763, 0, 94]);
    assert!(runs.iter().all(|run| run.decided() == 6400));
    assert_eq!(Some(runs[2].step.m), given.greatest_step());
    let before_end = |run: &Run| joined(&run.blocks[90..100]).map(ErrorPower::decibels);
    let trained: Vec<f64> = runs.iter().filter_map(before_end).collect();
    assert!(
        trained[0] > 0.0 && trained[1] < -6.0 && trained[2] < -6.0,
        "{trained:?}"
    );
    let end = |run: &Run| run.last_error_power().map(ErrorPower::decibels);
    assert!(end(&runs[1]) < end(&runs[2]));
}

#[test]
fn the_table_has_a_row_for_each_block_and_its_columns() {
    let given = given(EXAMPLE);
    let csv = table::csv(&given, &runs(&given));
    let lines: Vec<&str> = csv.lines().collect();
    assert_eq!(lines.len(), 1 + 3 * 300);
    let columns: Vec<&str> = lines[0].split(',').collect();
    assert_eq!(
        columns[..6],
        [
            "step",
            "M",
            "share of the greatest M",
            "block",
            "first sample",
            "turned down with"
        ]
    );
    assert_eq!(
        columns[14..],
        [
            "feed forward 0",
            "feed forward 1",
            "feedback 1",
            "feedback 2",
            "feedback 3",
            "feedback 4"
        ]
    );
    assert!(lines
        .iter()
        .all(|line| line.split(',').count() == columns.len()));
    assert!(lines[301].starts_with("2,524288,0.250000,0,0,0,"));
    assert!(lines[900].starts_with("3,2097152,1.000000,299,9568,0,"));
    let first = "-0.018280,0.037872,-0.007874,-0.018280,0.014557,-0.011963,-0.003662";
    assert!(
        lines[1].ends_with(&format!(",0.037872,{first}")),
        "{}",
        lines[1]
    );
}

/// A run that was turned down in its third block.
fn stopped() -> (Given, Vec<Run>) {
    let text = with_line(WORKED, 7, "symbols = 1 1 1 1");
    let given = given(&text);
    let mut runs = runs(&given);
    runs[0].blocks.truncate(2);
    runs[0].stopped = Some(6);
    (given, runs)
}

#[test]
fn a_block_that_is_turned_down_is_told_in_the_table_and_the_summary() {
    let (given, runs) = stopped();
    let csv = table::csv(&given, &runs);
    let columns = csv.lines().next().expect("a header").split(',').count();
    let last = csv.lines().last().expect("a row");
    assert_eq!(
        last,
        format!("1,67108864,1.000000,2,2,6{}", ",".repeat(columns - 6))
    );
    let summary = summary::summary(&given, &runs);
    assert!(
        summary.contains("; block 2 turned down with 6; "),
        "{summary}"
    );
    let page = lab::page::page(&given, &runs, "a");
    let line = "M = 67108864: block 2 turned down with 6, and ends there";
    assert!(
        page.lines.iter().any(|told| told == line),
        "{:?}",
        page.lines
    );
}

#[test]
fn the_summary_has_a_line_for_each_step_size() {
    let given = given(EXAMPLE);
    let summary = summary::summary(&given, &runs(&given));
    assert_eq!(summary.lines().count(), 4 + 3);
    let shown = [
        "response 0.4 −0.07 −0.02 0.02 −0.01 0 0 0 0.04, no noise",
        "9600 symbols, random from seed 1; training on the first 3200; least gain 0 (L)",
        "share 1/4: M = 524288, 0.250000 of the greatest: wrong decisions after training 0 of 6400 (0 %); \
         error power over the last 30 blocks −6.8 dB (2.0677e-1); ψ 3; feed forward weights 2.476562 0.046875; \
         feedback weights 0.150879 0.050781 −0.05835 0.016846",
    ];
    for line in shown {
        assert!(summary.lines().any(|found| found == line), "{line}");
    }
}

#[test]
fn a_long_response_is_cut_to_a_line() {
    let response = "response = ".to_string() + &"-12345 ".repeat(32);
    let line = |text: &str| summary::cable(&given(text))[1].clone();
    let cut = line(&with_line(WORKED, 6, &response));
    assert!(
        cut.starts_with("response −0.37674 −0.37674 ") && cut.ends_with(" more, no noise"),
        "{cut}"
    );
    assert!((100..=115).contains(&cut.chars().count()), "{cut}");
    let ends = with_line(WORKED, 6, "response = 32767 -32768 1 -1 0 16384");
    assert_eq!(
        line(&ends),
        "response 0.99997 −1 0.00003 −0.00003 0 0.5, no noise"
    );
}

/// Newest first, as many as there were.
fn push(list: &mut [f64], newest: f64) {
    list.rotate_right(1);
    list[0] = newest;
}

fn product(weights: &[f64], data: &[f64]) -> f64 {
    weights.iter().zip(data).map(|(w, x)| w * x).sum()
}

/// LMS in plain floating point numbers on the cable of a text, nothing cut:
/// wrong decisions after training, and the error power over the last tenth.
fn plain_lms(given: &Given, m: u32) -> (usize, f64) {
    let step = f64::from(m) / f64::from(1 << 30);
    let (p, q) = (usize::from(given.p.value), usize::from(given.q.value));
    let (response, sent) = (given.response.plain(), given.symbols.plain());
    let response: Vec<f64> = response.iter().map(|h| f64::from(*h) / 32768.0).collect();
    let most = f64::from((2 << given.r.value) - 1);
    let mut on_cable = vec![0.0; response.len()];
    let (mut forward, mut heard) = (vec![0.0; p], vec![0.0; p]);
    let (mut back, mut past) = (vec![0.0; q], vec![0.0; q]);
    let (mut wrong, mut squares) = (0, Vec::new());
    for (place, symbol) in sent.iter().map(|symbol| f64::from(*symbol)).enumerate() {
        push(&mut on_cable, symbol);
        push(&mut heard, product(&response, &on_cable));
        let y = product(&forward, &heard) + product(&back, &past);
        let decision = (2.0 * (y / 2.0).floor() + 1.0).clamp(-most, most);
        let trained = place < given.training.value;
        let aim = if trained { symbol } else { decision };
        wrong += usize::from(!trained && decision != symbol);
        squares.push((aim - y) * (aim - y));
        let gain = step * (aim - y);
        forward
            .iter_mut()
            .zip(&heard)
            .for_each(|(w, x)| *w += gain * x);
        back.iter_mut().zip(&past).for_each(|(w, x)| *w += gain * x);
        push(&mut past, aim);
    }
    let last = &squares[sent.len() - sent.len() / 10..];
    (wrong, last.iter().sum::<f64>() / last.len() as f64)
}

/// What the example shows is the method's own, not that of short registers.
#[test]
fn the_example_fares_as_in_plain_floating_point() {
    let given = given(EXAMPLE);
    for run in runs(&given) {
        let (wrong, power) = plain_lms(&given, run.step.m);
        let end = run.last_error_power().map_or(0.0, ErrorPower::decibels);
        let apart = decibels(power) - end;
        assert!(apart.abs() < 0.2, "{}: {apart} dB", run.step.name);
        assert!(
            wrong.abs_diff(run.wrong()) <= run.wrong() / 10,
            "{}: {wrong}",
            run.step.name
        );
    }
}

/// Without the far echo nothing stays but what is cut: each step is less than
/// a unit of a weight then.
#[test]
fn without_the_echo_the_greatest_step_is_the_best() {
    let text = EXAMPLE.replace("-0.01 0 0 0 0.04", "-0.01");
    let given = given(&text);
    let runs = runs(&given);
    let ends: Vec<f64> = runs
        .iter()
        .filter_map(Run::last_error_power)
        .map(ErrorPower::decibels)
        .collect();
    assert_eq!((runs[1].wrong(), runs[2].wrong()), (0, 0));
    assert!(
        (ends[1] + 21.4).abs() < 0.1 && (ends[2] + 36.1).abs() < 0.1,
        "{ends:?}"
    );
    assert!(decibels(plain_lms(&given, runs[1].step.m).1) < -45.0);
}
