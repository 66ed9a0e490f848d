//! Transcripts and their listings.

mod common;

use common::answer;
use reference::model::Cluster;
use reference::random_transcripts::long_transcript_bytes;
use reference::transcript::{listing, LISTING_HEADER};

const EXAMPLE: [u8; 39] = [
    8, 0, 1, 0, 0, 0, 0, 3, //
    6, 0, 3, 0, 0, 0, //
    6, 0, 3, 0, 0, 0, //
    7, 0, 2, 0, 0, 0, 0, //
    6, 0, 3, 0, 0, 0, //
    6, 0, 3, 0, 0, 0,
];

const EXAMPLE_LISTING: &str = "n kind answer wire
1 1 0 1
2 3 0 1
3 3 0 0
4 2 0 1
5 3 0 0
6 3 8 0
";

fn run(bytes: &[u8]) -> (u8, usize, Cluster) {
    let mut cluster = Cluster::new();
    let outcome = cluster.run_transcript(bytes);
    (answer(outcome.answer), outcome.record, cluster)
}

#[test]
fn example_listing() {
    assert_eq!(listing(&EXAMPLE), EXAMPLE_LISTING);
    let (answer, records, cluster) = run(&EXAMPLE);
    assert_eq!((answer, records), (0, 6));
    assert_eq!(cluster, Cluster::new());
}

#[test]
fn empty_transcript() {
    assert_eq!(listing(&[]), LISTING_HEADER);
    assert_eq!(run(&[]), (0, 0, Cluster::new()));
}

#[test]
fn bad_records_stop_the_reading() {
    let good = &EXAMPLE[..8];
    let tails: [&[u8]; 12] = [
        &[6],
        &[6, 0],
        &[6, 0, 3],
        &[6, 0, 3, 0],
        &[6, 0, 3, 0, 0],
        &[6, 0, 0, 0, 0, 0],
        &[6, 0, 4, 0, 0, 0],
        &[6, 0, 3, 1, 0, 0],
        &[7, 0, 3, 0, 0, 0, 0],
        &[5, 0, 3, 0, 0, 0],
        &[6, 1, 3, 0, 0, 0],
        &[0, 0, 3, 0, 0, 0],
    ];
    let (_, _, after_good) = run(good);
    for tail in tails {
        let bytes = [good, tail].concat();
        assert_eq!(run(&bytes), (12, 2, after_good.clone()), "{tail:?}");
        let expected = format!("{LISTING_HEADER}1 1 0 1\n2 - 12 -\n");
        assert_eq!(listing(&bytes), expected);
    }
}

#[test]
fn wire_of_no_lock_is_not_counted() {
    let bytes = [6, 0, 3, 0, 8, 0, 7, 0, 2, 0, 0, 4, 0];
    let expected = format!("{LISTING_HEADER}1 3 1 -\n2 2 2 0\n");
    assert_eq!(listing(&bytes), expected);
}

#[test]
fn longest_transcript() {
    // 10,922 deliveries take 65,532 bytes; three bytes are left.
    let mut bytes: Vec<u8> = [6, 0, 3, 0, 0, 0].repeat(10_922);
    assert_eq!(run(&bytes), (0, 10_922, Cluster::new()));
    bytes.extend([6, 0, 3]);
    assert_eq!(bytes.len(), 65_535);
    assert_eq!(run(&bytes), (12, 10_923, Cluster::new()));
    bytes.push(0);
    assert_eq!(run(&bytes), (13, 0, Cluster::new()));
    assert_eq!(listing(&bytes), format!("{LISTING_HEADER}0 - 13 -\n"));
}

#[test]
fn long_transcripts_are_good_and_mostly_accepted() {
    for seed in 1..=20 {
        let bytes = long_transcript_bytes(seed);
        assert!(bytes.len() <= 65_535);
        assert_eq!(bytes, long_transcript_bytes(seed));
        let mut accepted = 0;
        let whole = Cluster::new().run_transcript_with(&bytes, |_, _, outcome, _| {
            accepted += usize::from(outcome.is_ok());
        });
        assert_eq!(answer(whole.answer), 0);
        assert!((2_000..=10_000).contains(&whole.record), "{whole:?}");
        assert!(2 * accepted > whole.record && accepted < whole.record);
    }
}
