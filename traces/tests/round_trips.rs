//! A trace that is shown makes the same trace again.

mod common;

use common::{any_trace, stored, WORKED};
use reference::random::Random;
use traces::show;
use traces::text::read;
use traces::trace::{Trace, MOST_BYTES};

/// The bytes that the text of these bytes makes.
fn again(bytes: &[u8]) -> Vec<u8> {
    let trace = Trace::of_bytes(bytes).unwrap();
    read(&show::text(&trace)).unwrap().trace.bytes()
}

#[test]
fn the_worked_example() {
    let text = "p = 1\nq = 1\nN = 1\nr = 0\nL = 0\nM = 67108864\n16384 0 1\n16384 0\n";
    assert_eq!(read(text).unwrap().trace.bytes(), WORKED);
    assert_eq!(again(&WORKED), WORKED);
    let shown = show::text(&Trace::of_bytes(&WORKED).unwrap());
    assert!(
        shown.contains("# block 1, sample 1\n16384 0 0\n"),
        "{shown}"
    );
}

#[test]
fn any_traces() {
    let mut random = Random::new(1);
    for round in 0..3000 {
        let trace = any_trace(&mut random, 1 + round % 50);
        let bytes = trace.bytes();
        assert_eq!(Trace::of_bytes(&bytes), Ok(trace));
        assert_eq!(again(&bytes), bytes);
    }
}

#[test]
fn every_byte_of_a_trace_matters() {
    let shown = |bytes: &[u8]| Trace::of_bytes(bytes).map(|trace| show::text(&trace));
    let whole = shown(&WORKED).unwrap();
    for place in 0..WORKED.len() {
        let mut changed = WORKED;
        changed[place] ^= 1;
        assert_ne!(shown(&changed), Ok(whole.clone()), "byte {place}");
    }
}

#[test]
fn the_stored_traces() {
    let (mut good, mut wrong) = (0, 0);
    for (bytes, text) in stored() {
        let is_wrong = text == "stop 8 0\n";
        assert_eq!(Trace::of_bytes(&bytes).is_err(), is_wrong);
        if is_wrong {
            wrong += 1;
        } else {
            assert_eq!(again(&bytes), bytes);
            good += 1;
        }
    }
    assert!(good > 300 && wrong > 20, "{good} and {wrong}");
}

#[test]
fn no_samples() {
    for (n, blocks) in [(0, 0), (0, 1), (0, 65535), (7, 0), (255, 0)] {
        let mut bytes = WORKED[..12].to_vec();
        bytes[2] = n;
        bytes[6..8].copy_from_slice(&u16::to_le_bytes(blocks));
        assert_eq!(again(&bytes), bytes);
    }
}

#[test]
fn the_longest_trace() {
    let mut bytes = vec![0; MOST_BYTES];
    bytes[2] = 1;
    bytes[6..8].copy_from_slice(&u16::to_le_bytes(16381));
    assert_eq!(again(&bytes), bytes);
    bytes.push(0);
    let wrong = Trace::of_bytes(&bytes).unwrap_err();
    assert!(wrong[0].contains("more than 65536 bytes"), "{wrong:?}");
}

#[test]
fn what_is_no_trace_is_told() {
    let mut byte_5 = WORKED;
    byte_5[5] = 7;
    let cases: [(&[u8], &[&str]); 4] = [
        (
            &[],
            &["0 bytes, but a trace begins with 12: p, q, N, r, L, 0, the block count, M"],
        ),
        (
            &WORKED[..11],
            &["11 bytes, but a trace begins with 12: p, q, N, r, L, 0, the block count, M"],
        ),
        (
            &WORKED[..19],
            &["19 bytes, but N = 1 and a block count of 2 ask for 12 + 4·1·2 = 20"],
        ),
        (&byte_5, &["byte 5 is 7, but 0 is wanted"]),
    ];
    for (bytes, wanted) in cases {
        assert_eq!(Trace::of_bytes(bytes).unwrap_err(), wanted);
    }
    assert_eq!(Trace::of_bytes(&byte_5[..19]).unwrap_err().len(), 2);
}
