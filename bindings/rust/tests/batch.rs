//! Batches of the example images.

use oce::{
    BATCH_IMAGES_MOST, BatchRefusal, Checked, DIAGNOSTIC_SIZE, Diagnostic, IMAGE_MOST, Refusal,
    Reported, SUMMARY_SIZE, TooLong, Unchecked,
};

const UNCONNECTED: &[u8] = include_bytes!("../../../examples/images/unconnected-input.image");
const DISPLAY_UNITS: &[u8] = include_bytes!("../../../examples/images/display-units.image");
const FAN_OUT: &[u8] = include_bytes!("../../../examples/images/fan-out.image");
const CUT: &[u8] = include_bytes!("../../../examples/images/cut.image");
/// A head alone: checked, with nothing reported.
const HEAD: &[u8] = UNCONNECTED.first_chunk::<23>().unwrap();

/// What a lent buffer holds before a call.
const BEFORE: u8 = 0xA5;
/// The bytes before a field's contents.
const LEADING: usize = 3;

fn batch(images: &[&[u8]]) -> Vec<u8> {
    let mut batch = Vec::new();
    for image in images {
        oce::push_image(&mut batch, image).unwrap();
    }
    batch
}

/// The refusal of a batch with an output buffer of this length, which must keep its bytes.
fn refused(batch: &[u8], room: usize) -> BatchRefusal {
    let mut output = vec![BEFORE; room];
    let refusal = oce::check_batch(batch, &mut output).unwrap_err();
    assert!(output.iter().all(|&b| b == BEFORE));
    refusal
}

/// The bytes that the output of a batch needs.
fn needed(batch: &[u8]) -> usize {
    match refused(batch, 0) {
        BatchRefusal::OutputShort { needed } => needed,
        other => panic!("{other}"),
    }
}

/// What the single call gives for an image.
fn single(image: &[u8]) -> Result<Reported, Refusal> {
    oce::check_image(image).map(|outcome| Reported {
        checked: outcome.checked,
        diagnostics: outcome.diagnostics,
    })
}

/// The part of an output that the single call's report gives.
fn part(image: &[u8]) -> Vec<u8> {
    let mut filled = vec![0; image.len()];
    let mut report = vec![0; 100 * DIAGNOSTIC_SIZE];
    let mut part = vec![0x31, 13, 0];
    match oce::check(image, &mut filled, &mut report) {
        Err(refusal) => {
            let (number, at) = refusal.numbers();
            part.push(number as u8);
            part.extend(at.to_le_bytes());
            part.extend([0; 8]);
        }
        Ok(checked) => {
            part.extend([0; 5]);
            part.extend(checked.errors.to_le_bytes());
            part.extend(checked.warnings.to_le_bytes());
            part.extend(&report[..checked.diagnostics() * DIAGNOSTIC_SIZE]);
        }
    }
    part
}

/// Images of many kinds, one of 0 bytes among them.
const MIXED: [&[u8]; 8] = [
    CUT,
    UNCONNECTED,
    &[],
    DISPLAY_UNITS,
    HEAD,
    FAN_OUT,
    b"no image at all, but long enough",
    UNCONNECTED,
];

#[test]
fn a_mixed_batch_is_what_single_calls_give() {
    let batch = batch(&MIXED);
    let expected: Vec<u8> = MIXED.iter().flat_map(|image| part(image)).collect();
    assert_eq!(needed(&batch), expected.len());
    let mut output = vec![BEFORE; expected.len() + 40];
    assert_eq!(oce::check_batch(&batch, &mut output), Ok(expected.len()));
    let (written, behind) = output.split_at(expected.len());
    assert_eq!(written, expected);
    assert!(behind.iter().all(|&b| b == BEFORE));
    let results: Vec<_> = oce::results(written)
        .map(|result| {
            result.map(|(checked, diagnostics)| Reported {
                checked,
                diagnostics: diagnostics.collect(),
            })
        })
        .collect();
    assert_eq!(results, MIXED.map(single));
    assert_eq!(oce::check_images(MIXED), Ok(results));
}

#[test]
fn offsets_are_the_image_s_own() {
    let mut results = oce::check_images([HEAD, CUT]).unwrap().into_iter();
    let (errors, warnings) = (0, 0);
    assert_eq!(
        results.next(),
        Some(Ok(Reported {
            checked: Checked { errors, warnings },
            diagnostics: Vec::new()
        }))
    );
    assert_eq!(results.next(), Some(Err(Refusal::Cut { at: 27 })));
    assert_eq!(results.next(), None);
}

#[test]
fn an_empty_batch() {
    let mut output = [BEFORE; 20];
    assert_eq!(oce::check_batch(&[], &mut output), Ok(0));
    assert_eq!(output, [BEFORE; 20]);
    assert_eq!(oce::check_batch(&[], &mut []), Ok(0));
    assert_eq!(oce::results(&[]).count(), 0);
    assert_eq!(oce::check_images::<[&[u8]; 0]>([]), Ok(Vec::new()));
}

#[test]
fn fields_at_fault() {
    let good = batch(&[UNCONNECTED, HEAD]);
    let second = LEADING + UNCONNECTED.len();
    let first_two = needed(&good);
    // cut in the contents or in the leading bytes, behind good fields and as the only one
    for len in second + 1..good.len() {
        assert_eq!(
            refused(&good[..len], 4_000),
            BatchRefusal::Field { at: second }
        );
    }
    for len in 1..second {
        assert_eq!(refused(&good[..len], 4_000), BatchRefusal::Field { at: 0 });
    }
    // another tag, of whatever contents
    for tag in (0..=u8::MAX).filter(|&tag| tag != 0x30) {
        let mut wrong = good.clone();
        wrong[second] = tag;
        assert_eq!(refused(&wrong, 4_000), BatchRefusal::Field { at: second });
    }
    // the first of two, and before a short output
    let mut two = good.clone();
    two[second] = 0x31;
    two.push(0x30);
    assert_eq!(refused(&two, 0), BatchRefusal::Field { at: second });
    two[0] = 0;
    assert_eq!(refused(&two, 4_000), BatchRefusal::Field { at: 0 });
    let mut cut = good.clone();
    cut.push(0x30);
    let fault = refused(&cut, 0);
    assert_eq!(fault, BatchRefusal::Field { at: good.len() });
    assert_eq!(fault.to_string(), format!("refused 11 at {}", good.len()));
    // the batch that all of these come from isn't at fault
    assert_eq!(oce::check_batch(&good, &mut [0; 4_000]), Ok(first_two));
}

#[test]
fn an_output_that_is_too_short() {
    let batch = batch(&MIXED);
    let needed = needed(&batch);
    for room in [0, 1, SUMMARY_SIZE - 1, SUMMARY_SIZE, needed / 2, needed - 1] {
        assert_eq!(refused(&batch, room), BatchRefusal::OutputShort { needed });
    }
    let short = refused(&batch, needed - 1);
    assert_eq!(short.to_string(), format!("refused 12 at {needed}"));
    assert_eq!(oce::check_batch(&batch, &mut vec![0; needed]), Ok(needed));
}

#[test]
fn as_many_images_as_there_may_be() {
    let mut full = batch(&[HEAD; BATCH_IMAGES_MOST]);
    let (len, needed) = (full.len(), SUMMARY_SIZE * BATCH_IMAGES_MOST);
    assert!(len > IMAGE_MOST);
    let mut output = vec![BEFORE; needed];
    assert_eq!(oce::check_batch(&full, &mut output), Ok(needed));
    assert_eq!(oce::results(&output).count(), BATCH_IMAGES_MOST);
    assert!(output.chunks_exact(SUMMARY_SIZE).all(|c| c == part(HEAD)));
    assert_eq!(
        refused(&full, needed - 1),
        BatchRefusal::OutputShort { needed }
    );
    // one more, whole, cut or of another tag
    for more in [&[0x30, 0, 0][..], &[0x30], &[7, 0, 0]] {
        full.truncate(len);
        full.extend(more);
        assert_eq!(refused(&full, needed + 16), BatchRefusal::Field { at: len });
    }
    assert_eq!(
        oce::check_images([HEAD; BATCH_IMAGES_MOST + 1]),
        Err(Unchecked::Refused(BatchRefusal::Field { at: len }))
    );
    // one that is at fault before
    full[0] = 0x20;
    assert_eq!(refused(&full, needed + 16), BatchRefusal::Field { at: 0 });
}

#[test]
fn images_that_fit_a_field_and_one_that_does_not() {
    let longest = vec![0; IMAGE_MOST];
    let longer = vec![0; IMAGE_MOST + 1];
    let mut batch = Vec::new();
    assert_eq!(oce::push_image(&mut batch, &longest), Ok(()));
    assert_eq!(batch.len(), LEADING + IMAGE_MOST);
    let before = batch.clone();
    let bytes = longer.len();
    assert_eq!(oce::push_image(&mut batch, &longer), Err(TooLong { bytes }));
    assert_eq!(batch, before);
    assert_eq!(
        oce::check_images([&longest]),
        Ok(vec![Err(Refusal::Tag { at: 0 })])
    );
    let unchecked = oce::check_images([&longest, &longer]).unwrap_err();
    assert_eq!(unchecked, Unchecked::TooLong { image: 1, bytes });
    assert_eq!(
        unchecked.to_string(),
        "image 1: an image of 65536 bytes doesn't fit a field"
    );
}

#[test]
fn threads_at_once() {
    let expected = MIXED.map(single).to_vec();
    std::thread::scope(|scope| {
        for _ in 0..4 {
            scope.spawn(|| {
                for _ in 0..50 {
                    assert_eq!(oce::check_images(MIXED).as_ref(), Ok(&expected));
                }
            });
        }
    });
}

#[test]
fn bytes_that_are_no_output() {
    let batch = batch(&[UNCONNECTED, CUT]);
    let mut output = vec![0; needed(&batch)];
    oce::check_batch(&batch, &mut output).unwrap();
    let first = SUMMARY_SIZE + 2 * DIAGNOSTIC_SIZE;
    let mut counts = Vec::new();
    // cut anywhere: only whole results are given
    for len in 0..=output.len() {
        counts.push(oce::results(&output[..len]).count());
    }
    let whole = |len: usize| usize::from(len >= first) + usize::from(len == output.len());
    assert_eq!(counts, Vec::from_iter((0..=output.len()).map(whole)));
    // a tag, a length, an offset without a refusal, counts beside one: nothing from there on
    for (at, value, results) in [
        (0, 0x30, 0),
        (1, 12, 0),
        (2, 1, 0),
        (4, 1, 0),
        (11, 1, 0),
        (first, 0, 1),
        (first + 8, 1, 1),
        (first + 12, 1, 1),
    ] {
        let mut wrong = output.clone();
        wrong[at] = value;
        let mut left = oce::results(&wrong);
        assert_eq!(left.by_ref().count(), results, "byte {at}");
        assert!(left.next().is_none());
    }
    // a report that is none has fewer diagnostics
    output[SUMMARY_SIZE] = 0;
    let (checked, diagnostics) = oce::results(&output).next().unwrap().unwrap();
    assert_eq!(checked.errors, 2);
    assert_eq!(Vec::<Diagnostic>::from_iter(diagnostics), []);
}
