//! Run streams: the refusals that no other layout gives, and a stream run by run.

use cahermisk::runs::{next, unpack_to_vec, Run, Runs};
use cahermisk::Refusal;

/// Three times 4, and then one group: 0 to 7.
const PAGE: [u8; 6] = [0x06, 0x04, 0x03, 0x88, 0xC6, 0xFA];

const FOURS: Run = Run::Repeated {
    length: 3,
    value: 4,
};

/// The group of a page.
fn group(page: &[u8]) -> Run<'_> {
    Run::Packed {
        length: 8,
        body: &page[3..6],
    }
}

#[test]
fn streams_refuse() {
    for (page, n, refusal) in [
        (
            &[0xFF, 0xFF, 0xFF, 0xFF, 0x10][..],
            3,
            Refusal::NumberBeyondItsBits,
        ),
        (&[0x00, 0x05], 3, Refusal::RunOfLength0),
        (&PAGE, 2, Refusal::RunPastN),
        (&[0x06, 0x08], 3, Refusal::ValueTooLarge),
        (&PAGE, 12, Refusal::InputEndsTooEarly),
        (&PAGE, 3, Refusal::InputLeftOver),
    ] {
        assert_eq!(unpack_to_vec(page, 3, n), Err(refusal));
    }
}

#[test]
fn one_run_at_a_place() {
    assert_eq!(next(&PAGE, 3, 11, 0, 0), Ok((FOURS, 2)));
    assert_eq!(next(&PAGE, 3, 11, 2, 3), Ok((group(&PAGE), 6)));
    assert_eq!(next(&PAGE, 3, 4, 2, 3), Ok((group(&PAGE), 6)));
    assert_eq!((FOURS.length(), group(&PAGE).length()), (3, 8));
    assert_eq!(next(&PAGE, 33, 11, 0, 0), Err(Refusal::WidthAboveLimit));
    assert_eq!(next(&PAGE, 3, 16_385, 0, 0), Err(Refusal::TooManyEntries));
    assert_eq!(next(&PAGE, 3, 11, 7, 0), Err(Refusal::InputEndsTooEarly));
    assert_eq!(next(&PAGE, 3, 11, 0, 11), Err(Refusal::RunPastN));
    for huge in [1 << 32, usize::MAX] {
        assert_eq!(
            next(&PAGE, 3, 11, huge, huge),
            Err(Refusal::InputEndsTooEarly)
        );
        assert_eq!(next(&PAGE, 3, 11, 0, huge), Err(Refusal::RunPastN));
    }
}

/// The bytes of a packed run are the page's own.
#[test]
fn a_body_is_a_part_of_the_page() {
    let Ok((Run::Packed { body, .. }, _)) = next(&PAGE, 3, 11, 2, 3) else {
        panic!("a packed run");
    };
    assert_eq!(body.as_ptr_range(), PAGE[3..6].as_ptr_range());
}

#[test]
fn all_runs_in_turn() {
    let mut runs = Runs::new(&PAGE, 3, 11);
    assert_eq!((runs.place(), runs.covered()), (0, 0));
    assert_eq!(runs.next(), Some(Ok(FOURS)));
    assert_eq!((runs.place(), runs.covered()), (2, 3));
    assert_eq!(runs.next(), Some(Ok(group(&PAGE))));
    assert_eq!((runs.place(), runs.covered()), (6, 11));
    assert_eq!(runs.next(), None);
    assert_eq!(runs.next(), None);
}

fn all<'a>(runs: &mut Runs<'a>) -> Result<Vec<Run<'a>>, Refusal> {
    runs.collect()
}

/// The run that reaches n is the last, also where it passes n or bytes are left.
#[test]
fn runs_end_with_the_run_that_reaches_n() {
    let mut runs = Runs::new(&PAGE, 3, 4);
    assert_eq!(all(&mut runs), Ok(vec![FOURS, group(&PAGE)]));
    assert_eq!((runs.place(), runs.covered()), (6, 11));
    let mut runs = Runs::new(&PAGE, 3, 3);
    assert_eq!(all(&mut runs), Ok(vec![FOURS]));
    assert_eq!((runs.place(), runs.covered()), (2, 3));
    assert_eq!(Runs::new(&PAGE, 3, 0).next(), None);
    assert_eq!(Runs::new(&[], 3, 0).next(), None);
}

/// A refusal is given once, and nothing after it.
#[test]
fn runs_end_with_a_refusal() {
    for (page, width, n, good, refusal) in [
        (&PAGE[..5], 3, 11, 1, Refusal::InputEndsTooEarly),
        (&PAGE, 3, 12, 2, Refusal::InputEndsTooEarly),
        (&PAGE, 3, 2, 0, Refusal::RunPastN),
        (&PAGE, 2, 11, 0, Refusal::ValueTooLarge),
        (&PAGE, 33, 11, 0, Refusal::WidthAboveLimit),
        (&PAGE, 3, usize::MAX, 0, Refusal::TooManyEntries),
    ] {
        let mut runs = Runs::new(page, width, n);
        for _ in 0..good {
            assert!(matches!(runs.next(), Some(Ok(_))), "{refusal}");
        }
        assert_eq!(runs.next(), Some(Err(refusal)));
        assert_eq!(runs.next(), None);
        assert_eq!(runs.next(), None);
    }
}
