//! The lines of inspect.md, written out by hand.
//!
//! They are folded for reading: a line that begins with a blank goes on with
//! the one before it. IDLE stands for an idle client and REST for the drains of
//! the locks 1 to 7 that are at rest.

use reference::inspect::inspect;
use std::io::Write;
use std::process::{Command, Stdio};

const IDLE: &str = r#"{"status":"idle","mode":null,"lost":false,"reason":null}"#;

const REST: &str = concat!(
    r#"{"lock":1,"answer":0,"count":0,"handling":null},{"lock":2,"answer":0,"count":0,"handling":null},"#,
    r#"{"lock":3,"answer":0,"count":0,"handling":null},{"lock":4,"answer":0,"count":0,"handling":null},"#,
    r#"{"lock":5,"answer":0,"count":0,"handling":null},{"lock":6,"answer":0,"count":0,"handling":null},"#,
    r#"{"lock":7,"answer":0,"count":0,"handling":null}"#
);

/// 0/0 asks for lock 0, shared, and gets it.
const TAKE: [u8; 20] = [
    8, 0, 1, 0, 0, 0, 0, 3, //
    6, 0, 3, 0, 0, 0, //
    6, 0, 3, 0, 0, 0,
];

const TAKE_LINES: &str = r#"
{"n":1,"kind":"acquire","lock":0,"machine":0,"task":0,"mode":3,"answer":0,"named":null,"handling":null,"preference":0,"state":{
 "decider":{"mode":0,"machine":null,"incarnation":0,"writer":false},
 "agents":[null,null,null,null],
 "clients":[{"status":"waiting","mode":3,"lost":false,
 "reason":{"kind":"ACQUIRE","index":0,"machine":null,"ahead":null}},IDLE,IDLE,IDLE,
 IDLE,IDLE,IDLE,IDLE,IDLE,IDLE,IDLE,IDLE,IDLE,IDLE,IDLE,IDLE],
 "wire":[{"kind":"ACQUIRE","to":null,"client":0,"mode":3,
 "granted":false,"rejected":false,"circled":0,"agent":null}]},
 "counts":{"agents":0,"marked":0}}
{"n":2,"kind":"deliver","lock":0,"index":0,"answer":0,"handling":null,"preference":0,"state":{
 "decider":{"mode":3,"machine":0,"incarnation":0,"writer":false},
 "agents":[null,null,null,null],
 "clients":[{"status":"waiting","mode":3,"lost":false,
 "reason":{"kind":"GRANT","index":0,"machine":null,"ahead":null}},IDLE,IDLE,IDLE,
 IDLE,IDLE,IDLE,IDLE,IDLE,IDLE,IDLE,IDLE,IDLE,IDLE,IDLE,IDLE],
 "wire":[{"kind":"GRANT","to":0,"client":0,"mode":3,
 "granted":false,"rejected":false,"circled":0,
 "agent":{"mode":3,"holders":[],"queue":[],"incarnation":0}}]},
 "counts":{"agents":1,"marked":0}}
{"n":3,"kind":"deliver","lock":0,"index":0,"answer":0,"handling":null,"preference":0,"state":{
 "decider":{"mode":3,"machine":0,"incarnation":0,"writer":false},
 "agents":[{"mode":3,"holders":[0],"queue":[],"incarnation":0},null,null,null],
 "clients":[{"status":"holding","mode":3,"lost":false,"reason":null},IDLE,IDLE,IDLE,
 IDLE,IDLE,IDLE,IDLE,IDLE,IDLE,IDLE,IDLE,IDLE,IDLE,IDLE,IDLE],
 "wire":[]},
 "counts":{"agents":1,"marked":0}}
"#;

/// 1/0 asks as well, and the decider grants it (D2).
const SHARE: [u8; 14] = [
    8, 0, 1, 0, 0, 1, 0, 3, //
    6, 0, 3, 0, 0, 0,
];

const SHARE_LINES: &str = r#"
{"n":4,"kind":"acquire","lock":0,"machine":1,"task":0,"mode":3,"answer":0,"named":null,"handling":null,"preference":0,"state":{
 "decider":{"mode":3,"machine":0,"incarnation":0,"writer":false},
 "agents":[{"mode":3,"holders":[0],"queue":[],"incarnation":0},null,null,null],
 "clients":[{"status":"holding","mode":3,"lost":false,"reason":null},IDLE,IDLE,IDLE,
 {"status":"waiting","mode":3,"lost":false,
 "reason":{"kind":"ACQUIRE","index":0,"machine":null,"ahead":null}},IDLE,IDLE,IDLE,
 IDLE,IDLE,IDLE,IDLE,IDLE,IDLE,IDLE,IDLE],
 "wire":[{"kind":"ACQUIRE","to":null,"client":4,"mode":3,
 "granted":false,"rejected":false,"circled":0,"agent":null}]},
 "counts":{"agents":1,"marked":0}}
{"n":5,"kind":"deliver","lock":0,"index":0,"answer":0,"handling":null,"preference":0,"state":{
 "decider":{"mode":3,"machine":0,"incarnation":1,"writer":false},
 "agents":[{"mode":3,"holders":[0],"queue":[],"incarnation":0},null,null,null],
 "clients":[{"status":"holding","mode":3,"lost":false,"reason":null},IDLE,IDLE,IDLE,
 {"status":"waiting","mode":3,"lost":false,
 "reason":{"kind":"GRANT","index":0,"machine":null,"ahead":null}},IDLE,IDLE,IDLE,
 IDLE,IDLE,IDLE,IDLE,IDLE,IDLE,IDLE,IDLE],
 "wire":[{"kind":"GRANT","to":1,"client":4,"mode":3,
 "granted":false,"rejected":false,"circled":0,"agent":null},
 {"kind":"ACQUIRE","to":0,"client":4,"mode":3,
 "granted":true,"rejected":false,"circled":0,"agent":null}]},
 "counts":{"agents":1,"marked":1}}
"#;

fn unfolded(parts: &[&str]) -> String {
    let text: String = parts.iter().map(|part| part.trim_start()).collect();
    let text = text.replace("\n ", "");
    text.replace("IDLE", IDLE).replace("REST", REST)
}

/// The lines with this number for the preference.
fn inspected_with(preference: u8, bytes: &[u8]) -> String {
    let mut out = Vec::new();
    inspect(preference, bytes, &mut out).expect("a vector takes every write");
    String::from_utf8(out).expect("JSON is text")
}

fn inspected(bytes: &[u8]) -> String {
    inspected_with(0, bytes)
}

/// Compares line by line, so that a failure shows one line and not all.
fn assert_same(found: &str, expected: &str) {
    for (found, expected) in found.lines().zip(expected.lines()) {
        assert_eq!(found, expected);
    }
    assert_eq!(found, expected);
}

fn assert_lines(bytes: &[u8], parts: &[&str]) {
    assert_same(&inspected(bytes), &unfolded(parts));
}

fn assert_last_lines(bytes: &[u8], text: &str) {
    let (found, expected) = (inspected(bytes), unfolded(&[text]));
    let skipped = found.lines().count() - expected.lines().count();
    for (found, expected) in found.lines().skip(skipped).zip(expected.lines()) {
        assert_eq!(found, expected);
    }
    assert!(found.ends_with(&expected));
}

#[test]
fn a_line_in_full() {
    let bytes = [8, 0, 1, 0, 5, 3, 2, 2];
    let expected = concat!(
        r#"{"n":1,"kind":"acquire","lock":5,"machine":3,"task":2,"mode":2,"answer":0,"named":null,"#,
        r#""handling":null,"preference":0,"state":{"decider":{"mode":0,"machine":null,"incarnation":0,"writer":false},"#,
        r#""agents":[null,null,null,null],"clients":["#,
        r#"{"status":"idle","mode":null,"lost":false,"reason":null},{"status":"idle","mode":null,"lost":false,"reason":null},"#,
        r#"{"status":"idle","mode":null,"lost":false,"reason":null},{"status":"idle","mode":null,"lost":false,"reason":null},"#,
        r#"{"status":"idle","mode":null,"lost":false,"reason":null},{"status":"idle","mode":null,"lost":false,"reason":null},"#,
        r#"{"status":"idle","mode":null,"lost":false,"reason":null},{"status":"idle","mode":null,"lost":false,"reason":null},"#,
        r#"{"status":"idle","mode":null,"lost":false,"reason":null},{"status":"idle","mode":null,"lost":false,"reason":null},"#,
        r#"{"status":"idle","mode":null,"lost":false,"reason":null},{"status":"idle","mode":null,"lost":false,"reason":null},"#,
        r#"{"status":"idle","mode":null,"lost":false,"reason":null},{"status":"idle","mode":null,"lost":false,"reason":null},"#,
        r#"{"status":"waiting","mode":2,"lost":false,"#,
        r#""reason":{"kind":"ACQUIRE","index":0,"machine":null,"ahead":null}},"#,
        r#"{"status":"idle","mode":null,"lost":false,"reason":null}],"#,
        r#""wire":[{"kind":"ACQUIRE","to":null,"client":14,"mode":2,"#,
        r#""granted":false,"rejected":false,"circled":0,"agent":null}]},"#,
        r#""counts":{"agents":0,"marked":0}}"#,
        "\n",
        r#"{"end":"end","answer":0,"records":1,"handling":null,"preference":0,"drains":["#,
        r#"{"lock":0,"answer":0,"count":0,"handling":null},{"lock":1,"answer":0,"count":0,"handling":null},"#,
        r#"{"lock":2,"answer":0,"count":0,"handling":null},{"lock":3,"answer":0,"count":0,"handling":null},"#,
        r#"{"lock":4,"answer":0,"count":0,"handling":null},{"lock":5,"answer":0,"count":4,"handling":null},"#,
        r#"{"lock":6,"answer":0,"count":0,"handling":null},{"lock":7,"answer":0,"count":0,"handling":null}]}"#,
        "\n"
    );
    assert_eq!(inspected(&bytes), expected);
}

const EXAMPLE_TAIL: [u8; 19] = [
    7, 0, 2, 0, 0, 0, 0, //
    6, 0, 3, 0, 0, 0, //
    6, 0, 3, 0, 0, 0,
];

const EXAMPLE_TAIL_LINES: &str = r#"
{"n":4,"kind":"release","lock":0,"machine":0,"task":0,"answer":0,"handling":null,"preference":0,"state":{
 "decider":{"mode":3,"machine":0,"incarnation":0,"writer":false},
 "agents":[null,null,null,null],
 "clients":[IDLE,IDLE,IDLE,IDLE,IDLE,IDLE,IDLE,IDLE,
 IDLE,IDLE,IDLE,IDLE,IDLE,IDLE,IDLE,IDLE],
 "wire":[{"kind":"FREE","to":null,"client":null,"mode":null,
 "granted":false,"rejected":false,"circled":0,
 "agent":{"mode":3,"holders":[],"queue":[],"incarnation":0}}]},
 "counts":{"agents":1,"marked":0}}
{"n":5,"kind":"deliver","lock":0,"index":0,"answer":0,"handling":null,"preference":0,"state":{
 "decider":{"mode":0,"machine":null,"incarnation":0,"writer":false},
 "agents":[null,null,null,null],
 "clients":[IDLE,IDLE,IDLE,IDLE,IDLE,IDLE,IDLE,IDLE,
 IDLE,IDLE,IDLE,IDLE,IDLE,IDLE,IDLE,IDLE],
 "wire":[]},
 "counts":{"agents":0,"marked":0}}
{"n":6,"kind":"deliver","lock":0,"index":0,"answer":8,"handling":null,"preference":0,"state":{
 "decider":{"mode":0,"machine":null,"incarnation":0,"writer":false},
 "agents":[null,null,null,null],
 "clients":[IDLE,IDLE,IDLE,IDLE,IDLE,IDLE,IDLE,IDLE,
 IDLE,IDLE,IDLE,IDLE,IDLE,IDLE,IDLE,IDLE],
 "wire":[]},
 "counts":{"agents":0,"marked":0}}
{"end":"end","answer":0,"records":6,"handling":null,"preference":0,"drains":[{"lock":0,"answer":0,"count":0,"handling":null},REST]}
"#;

#[test]
fn example_listing() {
    let bytes = [&TAKE[..], &EXAMPLE_TAIL].concat();
    assert_lines(&bytes, &[TAKE_LINES, EXAMPLE_TAIL_LINES]);
}

/// The drain shows the GRANT, lists 1/0, releases 0/0 and 1/0, sends the
/// RELEASE to the decider, on to the agent, which takes it, and ends with the
/// FREE.
#[test]
fn d2_grant_and_granted_request() {
    let end = r#"
{"end":"end","answer":0,"records":5,"handling":null,"preference":0,"drains":[
 {"lock":0,"answer":0,"count":7,"handling":"taken"},REST]}
"#;
    let bytes = [&TAKE[..], &SHARE].concat();
    assert_lines(&bytes, &[TAKE_LINES, SHARE_LINES, end]);
}

const EARLY_FREE_LINES: &str = r#"
{"n":6,"kind":"release","lock":0,"machine":0,"task":0,"answer":0,"handling":null,"preference":0,"state":{
 "decider":{"mode":3,"machine":0,"incarnation":1,"writer":false},
 "agents":[null,null,null,null],
 "clients":[IDLE,IDLE,IDLE,IDLE,{"status":"waiting","mode":3,"lost":false,
 "reason":{"kind":"GRANT","index":0,"machine":null,"ahead":null}},IDLE,IDLE,IDLE,
 IDLE,IDLE,IDLE,IDLE,IDLE,IDLE,IDLE,IDLE],
 "wire":[{"kind":"GRANT","to":1,"client":4,"mode":3,
 "granted":false,"rejected":false,"circled":0,"agent":null},
 {"kind":"ACQUIRE","to":0,"client":4,"mode":3,
 "granted":true,"rejected":false,"circled":0,"agent":null},
 {"kind":"FREE","to":null,"client":null,"mode":null,
 "granted":false,"rejected":false,"circled":0,
 "agent":{"mode":3,"holders":[],"queue":[],"incarnation":0}}]},
 "counts":{"agents":1,"marked":1}}
{"n":7,"kind":"deliver","lock":0,"index":2,"answer":0,"handling":null,"preference":0,"state":{
 "decider":{"mode":3,"machine":0,"incarnation":1,"writer":false},
 "agents":[null,null,null,null],
 "clients":[IDLE,IDLE,IDLE,IDLE,{"status":"waiting","mode":3,"lost":false,
 "reason":{"kind":"GRANT","index":0,"machine":null,"ahead":null}},IDLE,IDLE,IDLE,
 IDLE,IDLE,IDLE,IDLE,IDLE,IDLE,IDLE,IDLE],
 "wire":[{"kind":"GRANT","to":1,"client":4,"mode":3,
 "granted":false,"rejected":false,"circled":0,"agent":null},
 {"kind":"ACQUIRE","to":0,"client":4,"mode":3,
 "granted":true,"rejected":false,"circled":0,"agent":null},
 {"kind":"FREE","to":0,"client":null,"mode":null,
 "granted":false,"rejected":true,"circled":0,
 "agent":{"mode":3,"holders":[],"queue":[],"incarnation":0}}]},
 "counts":{"agents":1,"marked":1}}
{"end":"end","answer":0,"records":7,"handling":null,"preference":0,"drains":[
 {"lock":0,"answer":0,"count":9,"handling":"taken"},REST]}
"#;

/// The drain shows the GRANT, sends the ACQUIRE back, restores the agent, sends
/// the ACQUIRE to it, lists 1/0 and releases it; then come the RELEASE, at the
/// decider and at the agent, and the FREE.
#[test]
fn d3_rejected_free() {
    let calls = [
        7, 0, 2, 0, 0, 0, 0, //
        6, 0, 3, 0, 0, 2,
    ];
    let bytes = [&TAKE[..], &SHARE, &calls].concat();
    assert_lines(&bytes, &[TAKE_LINES, SHARE_LINES, EARLY_FREE_LINES]);
}

const TWO_HOLDERS_LINES: &str = r#"
{"n":6,"kind":"deliver","lock":0,"index":0,"answer":0,"handling":null,"preference":0,"state":{
 "decider":{"mode":3,"machine":0,"incarnation":1,"writer":false},
 "agents":[{"mode":3,"holders":[0],"queue":[],"incarnation":0},null,null,null],
 "clients":[{"status":"holding","mode":3,"lost":false,"reason":null},IDLE,IDLE,IDLE,
 {"status":"holding","mode":3,"lost":false,"reason":null},IDLE,IDLE,IDLE,
 IDLE,IDLE,IDLE,IDLE,IDLE,IDLE,IDLE,IDLE],
 "wire":[{"kind":"ACQUIRE","to":0,"client":4,"mode":3,
 "granted":true,"rejected":false,"circled":0,"agent":null}]},
 "counts":{"agents":1,"marked":1}}
{"n":7,"kind":"deliver","lock":0,"index":0,"answer":0,"handling":"taken","preference":0,"state":{
 "decider":{"mode":3,"machine":0,"incarnation":1,"writer":false},
 "agents":[{"mode":3,"holders":[0,4],"queue":[],"incarnation":1},null,null,null],
 "clients":[{"status":"holding","mode":3,"lost":false,"reason":null},IDLE,IDLE,IDLE,
 {"status":"holding","mode":3,"lost":false,"reason":null},IDLE,IDLE,IDLE,
 IDLE,IDLE,IDLE,IDLE,IDLE,IDLE,IDLE,IDLE],
 "wire":[]},
 "counts":{"agents":1,"marked":0}}
{"n":8,"kind":"release","lock":0,"machine":1,"task":0,"answer":0,"handling":null,"preference":0,"state":{
 "decider":{"mode":3,"machine":0,"incarnation":1,"writer":false},
 "agents":[{"mode":3,"holders":[0,4],"queue":[],"incarnation":1},null,null,null],
 "clients":[{"status":"holding","mode":3,"lost":false,"reason":null},IDLE,IDLE,IDLE,IDLE,IDLE,IDLE,IDLE,
 IDLE,IDLE,IDLE,IDLE,IDLE,IDLE,IDLE,IDLE],
 "wire":[{"kind":"RELEASE","to":null,"client":4,"mode":null,
 "granted":false,"rejected":false,"circled":0,"agent":null}]},
 "counts":{"agents":1,"marked":0}}
{"end":"end","answer":0,"records":8,"handling":"taken","preference":0,"drains":[
 {"lock":0,"answer":0,"count":4,"handling":"taken"},REST]}
"#;

/// The drain takes two steps for the RELEASE, one for 0/0 and one for the FREE.
#[test]
fn two_holders_and_a_release() {
    let calls = [
        6, 0, 3, 0, 0, 0, //
        6, 0, 3, 0, 0, 0, //
        7, 0, 2, 0, 0, 1, 0,
    ];
    let bytes = [&TAKE[..], &SHARE, &calls].concat();
    assert_lines(&bytes, &[TAKE_LINES, SHARE_LINES, TWO_HOLDERS_LINES]);
}

const REJECTED_GRANT_LINES: &str = r#"
{"n":10,"kind":"deliver","lock":0,"index":2,"answer":0,"handling":null,"preference":0,"state":{
 "decider":{"mode":3,"machine":0,"incarnation":1,"writer":false},
 "agents":[null,null,null,null],
 "clients":[IDLE,IDLE,IDLE,IDLE,{"status":"waiting","mode":3,"lost":false,
 "reason":{"kind":"GRANT","index":0,"machine":null,"ahead":null}},IDLE,IDLE,IDLE,
 {"status":"waiting","mode":2,"lost":false,
 "reason":{"kind":"rejected GRANT","index":2,"machine":null,"ahead":null}},IDLE,IDLE,IDLE,IDLE,IDLE,IDLE,IDLE],
 "wire":[{"kind":"GRANT","to":1,"client":4,"mode":3,
 "granted":false,"rejected":false,"circled":0,"agent":null},
 {"kind":"ACQUIRE","to":0,"client":4,"mode":3,
 "granted":true,"rejected":false,"circled":0,"agent":null},
 {"kind":"GRANT","to":0,"client":8,"mode":2,
 "granted":false,"rejected":true,"circled":0,
 "agent":{"mode":3,"holders":[],"queue":[],"incarnation":0}}]},
 "counts":{"agents":1,"marked":1}}
{"n":11,"kind":"deliver","lock":0,"index":2,"answer":0,"handling":null,"preference":0,"state":{
 "decider":{"mode":3,"machine":0,"incarnation":1,"writer":false},
 "agents":[{"mode":3,"holders":[],"queue":[{"client":8,"mode":2}],"incarnation":0},
 null,null,null],
 "clients":[IDLE,IDLE,IDLE,IDLE,{"status":"waiting","mode":3,"lost":false,
 "reason":{"kind":"GRANT","index":0,"machine":null,"ahead":null}},IDLE,IDLE,IDLE,
 {"status":"waiting","mode":2,"lost":false,
 "reason":{"kind":"queue","index":null,"machine":0,"ahead":0}},IDLE,IDLE,IDLE,IDLE,IDLE,IDLE,IDLE],
 "wire":[{"kind":"GRANT","to":1,"client":4,"mode":3,
 "granted":false,"rejected":false,"circled":0,"agent":null},
 {"kind":"ACQUIRE","to":0,"client":4,"mode":3,
 "granted":true,"rejected":false,"circled":0,"agent":null}]},
 "counts":{"agents":1,"marked":1}}
{"end":"end","answer":0,"records":11,"handling":"taken","preference":0,"drains":[
 {"lock":0,"answer":0,"count":9,"handling":"taken"},REST]}
"#;

/// The drain shows the GRANT, lists 1/0, releases it, brings the RELEASE to the
/// decider and to the agent, the GRANT for 2/0 to the decider and to machine 2,
/// releases 2/0, and ends with the FREE.
#[test]
fn rejected_grant() {
    let calls = [
        8, 0, 1, 0, 0, 2, 0, 2, //
        6, 0, 3, 0, 0, 2, //
        6, 0, 3, 0, 0, 2, //
        7, 0, 2, 0, 0, 0, 0, //
        6, 0, 3, 0, 0, 2, //
        6, 0, 3, 0, 0, 2,
    ];
    let bytes = [&TAKE[..], &SHARE, &calls].concat();
    assert_last_lines(&bytes, REJECTED_GRANT_LINES);
}

const QUEUE_LINES: &str = r#"
{"n":7,"kind":"deliver","lock":0,"index":0,"answer":0,"handling":"taken","preference":0,"state":{
 "decider":{"mode":2,"machine":0,"incarnation":0,"writer":false},
 "agents":[{"mode":2,"holders":[0],
 "queue":[{"client":1,"mode":3},{"client":8,"mode":2}],"incarnation":0},null,null,null],
 "clients":[{"status":"holding","mode":2,"lost":false,"reason":null},{"status":"waiting","mode":3,"lost":false,
 "reason":{"kind":"queue","index":null,"machine":0,"ahead":0}},IDLE,IDLE,
 IDLE,IDLE,IDLE,IDLE,{"status":"waiting","mode":2,"lost":false,
 "reason":{"kind":"queue","index":null,"machine":0,"ahead":1}},IDLE,IDLE,IDLE,
 IDLE,IDLE,IDLE,IDLE],
 "wire":[]},
 "counts":{"agents":1,"marked":0}}
{"n":8,"kind":"release","lock":0,"machine":0,"task":0,"answer":0,"handling":null,"preference":0,"state":{
 "decider":{"mode":2,"machine":0,"incarnation":0,"writer":false},
 "agents":[null,null,null,null],
 "clients":[IDLE,{"status":"waiting","mode":3,"lost":false,
 "reason":{"kind":"GRANT","index":0,"machine":null,"ahead":null}},IDLE,IDLE,
 IDLE,IDLE,IDLE,IDLE,{"status":"waiting","mode":2,"lost":false,
 "reason":{"kind":"queue","index":0,"machine":null,"ahead":0}},IDLE,IDLE,IDLE,
 IDLE,IDLE,IDLE,IDLE],
 "wire":[{"kind":"GRANT","to":null,"client":1,"mode":3,
 "granted":false,"rejected":false,"circled":0,
 "agent":{"mode":2,"holders":[],"queue":[{"client":8,"mode":2}],"incarnation":0}}]},
 "counts":{"agents":1,"marked":0}}
{"end":"end","answer":0,"records":8,"handling":"taken","preference":0,"drains":[
 {"lock":0,"answer":0,"count":7,"handling":null},REST]}
"#;

/// 0/1 and 2/0 wait while 0/0 holds; the agent leaves with one of them.
/// The drain brings each of the two its GRANT in two steps, releases it in one,
/// and ends with the FREE.
#[test]
fn queue_with_two_waiters() {
    let bytes = [
        8, 0, 1, 0, 0, 0, 0, 2, //
        6, 0, 3, 0, 0, 0, //
        6, 0, 3, 0, 0, 0, //
        8, 0, 1, 0, 0, 0, 1, 3, //
        8, 0, 1, 0, 0, 2, 0, 2, //
        6, 0, 3, 0, 0, 0, //
        6, 0, 3, 0, 0, 0, //
        7, 0, 2, 0, 0, 0, 0,
    ];
    assert_last_lines(&bytes, QUEUE_LINES);
}

const AWAY_FROM_ZERO_LINES: &str = r#"
{"n":9,"kind":"release","lock":0,"machine":3,"task":0,"answer":0,"handling":null,"preference":0,"state":{
 "decider":{"mode":2,"machine":3,"incarnation":0,"writer":false},
 "agents":[null,null,null,null],
 "clients":[IDLE,IDLE,IDLE,IDLE,
 {"status":"waiting","mode":3,"lost":false,
 "reason":{"kind":"ACQUIRE","index":0,"machine":null,"ahead":null}},IDLE,IDLE,IDLE,
 {"status":"waiting","mode":2,"lost":false,
 "reason":{"kind":"ACQUIRE","index":1,"machine":null,"ahead":null}},IDLE,IDLE,IDLE,
 IDLE,
 {"status":"waiting","mode":2,"lost":false,
 "reason":{"kind":"GRANT","index":2,"machine":null,"ahead":null}},
 {"status":"waiting","mode":3,"lost":false,
 "reason":{"kind":"queue","index":2,"machine":null,"ahead":0}},
 {"status":"waiting","mode":2,"lost":false,
 "reason":{"kind":"queue","index":2,"machine":null,"ahead":1}}],
 "wire":[{"kind":"ACQUIRE","to":null,"client":4,"mode":3,
 "granted":false,"rejected":false,"circled":0,"agent":null},
 {"kind":"ACQUIRE","to":null,"client":8,"mode":2,
 "granted":false,"rejected":false,"circled":0,"agent":null},
 {"kind":"GRANT","to":null,"client":13,"mode":2,
 "granted":false,"rejected":false,"circled":0,
 "agent":{"mode":2,"holders":[],
 "queue":[{"client":14,"mode":3},{"client":15,"mode":2}],"incarnation":0}}]},
 "counts":{"agents":1,"marked":0}}
{"end":"end","answer":0,"records":9,"handling":null,"preference":0,"drains":[
 {"lock":0,"answer":0,"count":24,"handling":"taken"},REST]}
"#;

/// 3/0 holds, its neighbours queue on machine 3, 1/0 and 2/0 ask; then the agent leaves for 3/1 with the other two.
/// The drain sends both ACQUIREs on and back (4 steps), installs the agent (2), queues 1/0 and 2/0 (4). No reader stands
/// ahead of a writer then, so 3/1, 3/2, 3/3, 1/0 and 2/0 are released in turn, with two steps to bring each next GRANT
/// (3, 3, 3, 3, 1), and the FREE ends it.
#[test]
fn reasons_away_from_zero() {
    let bytes = [
        8, 0, 1, 0, 0, 3, 0, 2, //
        6, 0, 3, 0, 0, 0, //
        6, 0, 3, 0, 0, 0, //
        8, 0, 1, 0, 0, 3, 1, 2, //
        8, 0, 1, 0, 0, 3, 2, 3, //
        8, 0, 1, 0, 0, 3, 3, 2, //
        8, 0, 1, 0, 0, 1, 0, 3, //
        8, 0, 1, 0, 0, 2, 0, 2, //
        7, 0, 2, 0, 0, 3, 0,
    ];
    assert_last_lines(&bytes, AWAY_FROM_ZERO_LINES);
    // Before the release the three neighbours stand in the queue on machine 3.
    let text = inspected(&bytes);
    let before = text.lines().nth(7).expect("nine records");
    for (mode, ahead) in [(2, 0), (3, 1), (2, 2)] {
        let reason = format!(r#"{{"kind":"queue","index":null,"machine":3,"ahead":{ahead}}}"#);
        let client =
            format!(r#"{{"status":"waiting","mode":{mode},"lost":false,"reason":{reason}}}"#);
        assert!(before.contains(&client), "{before}");
    }
}

#[test]
fn lock_out_of_range_has_no_state() {
    let bytes = [
        8, 0, 1, 0, 8, 4, 5, 1, //
        7, 0, 2, 0, 255, 0, 6, //
        6, 0, 3, 0, 9, 40,
    ];
    let lines = r#"
{"n":1,"kind":"acquire","lock":8,"machine":4,"task":5,"mode":1,"answer":1,"named":null,"handling":null,"preference":0,"state":null,"counts":null}
{"n":2,"kind":"release","lock":255,"machine":0,"task":6,"answer":1,"handling":null,"preference":0,"state":null,"counts":null}
{"n":3,"kind":"deliver","lock":9,"index":40,"answer":1,"handling":null,"preference":0,"state":null,"counts":null}
{"end":"end","answer":0,"records":3,"handling":null,"preference":0,"drains":[{"lock":0,"answer":0,"count":0,"handling":null},REST]}
"#;
    assert_lines(&bytes, &[lines]);
}

const REFUSED_LINES: &str = r#"
{"n":2,"kind":"acquire","lock":7,"machine":0,"task":0,"mode":2,"answer":5,"named":null,"handling":null,"preference":0,"state":{
 "decider":{"mode":0,"machine":null,"incarnation":0,"writer":false},
 "agents":[null,null,null,null],
 "clients":[{"status":"waiting","mode":3,"lost":false,
 "reason":{"kind":"ACQUIRE","index":0,"machine":null,"ahead":null}},IDLE,IDLE,IDLE,
 IDLE,IDLE,IDLE,IDLE,IDLE,IDLE,IDLE,IDLE,IDLE,IDLE,IDLE,IDLE],
 "wire":[{"kind":"ACQUIRE","to":null,"client":0,"mode":3,
 "granted":false,"rejected":false,"circled":0,"agent":null}]},
 "counts":{"agents":0,"marked":0}}
{"n":3,"kind":"release","lock":7,"machine":4,"task":9,"answer":2,"handling":null,"preference":0,"state":{
 "decider":{"mode":0,"machine":null,"incarnation":0,"writer":false},
 "agents":[null,null,null,null],
 "clients":[{"status":"waiting","mode":3,"lost":false,
 "reason":{"kind":"ACQUIRE","index":0,"machine":null,"ahead":null}},IDLE,IDLE,IDLE,
 IDLE,IDLE,IDLE,IDLE,IDLE,IDLE,IDLE,IDLE,IDLE,IDLE,IDLE,IDLE],
 "wire":[{"kind":"ACQUIRE","to":null,"client":0,"mode":3,
 "granted":false,"rejected":false,"circled":0,"agent":null}]},
 "counts":{"agents":0,"marked":0}}
{"end":"end","answer":0,"records":3,"handling":null,"preference":0,"drains":[
 {"lock":0,"answer":0,"count":0,"handling":null},{"lock":1,"answer":0,"count":0,"handling":null},
 {"lock":2,"answer":0,"count":0,"handling":null},{"lock":3,"answer":0,"count":0,"handling":null},
 {"lock":4,"answer":0,"count":0,"handling":null},{"lock":5,"answer":0,"count":0,"handling":null},
 {"lock":6,"answer":0,"count":0,"handling":null},{"lock":7,"answer":0,"count":4,"handling":null}]}
"#;

#[test]
fn refused_step_shows_the_state_as_it_was() {
    let bytes = [
        8, 0, 1, 0, 7, 0, 0, 3, //
        8, 0, 1, 0, 7, 0, 0, 2, //
        7, 0, 2, 0, 7, 4, 9,
    ];
    assert_last_lines(&bytes, REFUSED_LINES);
}

/// 0/0 holds after the three records before the bad one, so the drain has to
/// release it and to deliver the FREE; the record behind is not run.
#[test]
fn bad_record_ends_the_lines() {
    let bad = [6, 0, 4, 0, 0, 0];
    let behind = [7, 0, 2, 0, 0, 0, 0];
    let end = r#"
{"end":"bad record","answer":12,"records":4,"handling":null,"preference":0,"drains":[{"lock":0,"answer":0,"count":2,"handling":null},REST]}
"#;
    let bytes = [&TAKE[..], &bad, &behind].concat();
    assert_lines(&bytes, &[TAKE_LINES, end]);
}

const TOO_LONG: &str = r#"
{"end":"too long","answer":13,"records":0,"handling":null,"preference":0,"drains":[{"lock":0,"answer":0,"count":0,"handling":null},REST]}
"#;

/// 8,192 acquires, of 8 bytes each.
fn overlong() -> Vec<u8> {
    [8, 0, 1, 0, 0, 0, 0, 3].repeat(8_192)
}

#[test]
fn overlong_transcript_is_not_run() {
    let bytes = overlong();
    assert_eq!(bytes.len(), 65_536);
    assert_lines(&bytes, &[TOO_LONG]);
}

#[test]
fn longest_transcript_is_run() {
    let mut bytes = overlong();
    bytes.truncate(65_528);
    bytes.extend([7, 0, 2, 0, 0, 0, 0]);
    assert_eq!(bytes.len(), 65_535);
    let end = r#"
{"end":"end","answer":0,"records":8192,"handling":null,"preference":0,"drains":[{"lock":0,"answer":0,"count":4,"handling":null},REST]}
"#;
    assert_last_lines(&bytes, end);
    assert_eq!(inspected(&bytes).lines().count(), 8_193);
}

#[test]
fn empty_transcript() {
    let end = r#"
{"end":"end","answer":0,"records":0,"handling":null,"preference":0,"drains":[{"lock":0,"answer":0,"count":0,"handling":null},REST]}
"#;
    assert_lines(&[], &[end]);
}

/// The fields `handling` of the records' lines, as they are written.
fn handlings_of_records(bytes: &[u8]) -> Vec<String> {
    let text = inspected(bytes);
    let records = text.lines().filter(|line| line.starts_with(r#"{"n":"#));
    let field = |line: &str| {
        let (before, rest) = line.split_once(r#","handling":"#).expect("a handling");
        let end = r#","preference":0,"state":"#;
        let (handling, _) = rest.split_once(end).expect("a preference and a state");
        // Of an acquire one more field stands between.
        let (before, _) = before.split_once(r#","named":"#).unwrap_or((before, ""));
        let digits = before.trim_end_matches(|c: char| c.is_ascii_digit());
        assert!(digits.ends_with(r#","answer":"#), "{line}");
        String::from(handling)
    };
    records.map(field).collect()
}

const NO_AGENT: &str = r#""no agent""#;
const NOT_A_HOLDER: &str = r#""not a holder""#;
const TAKEN: &str = r#""taken""#;

/// D6 and D7, after D2: the RELEASE of 1/0 comes to the agent before its ACQUIRE does, 1/0 may not ask yet, and both packets
/// are taken; then 1/0 asks again.
const BUSY: [u8; 59] = [
    6, 0, 3, 0, 0, 0, //
    7, 0, 2, 0, 0, 1, 0, //
    6, 0, 3, 0, 0, 1, //
    6, 0, 3, 0, 0, 1, //
    8, 0, 1, 0, 0, 1, 0, 3, //
    6, 0, 3, 0, 0, 0, //
    6, 0, 3, 0, 0, 0, //
    6, 0, 3, 0, 0, 0, //
    8, 0, 1, 0, 0, 1, 0, 3,
];

/// After ten records the drain lists 1/0, brings the RELEASE to the decider and to the agent, releases 0/0 and ends with the
/// FREE. After all fourteen it has 1/0 granted, in three steps, releases 0/0 and 1/0, brings the RELEASE to the agent in two,
/// and ends with the FREE.
#[test]
fn handlings_of_a_release_that_comes_early() {
    let bytes = [&TAKE[..], &SHARE, &BUSY].concat();
    let mut expected = vec!["null"; 14];
    (expected[8], expected[10], expected[12]) = (NOT_A_HOLDER, TAKEN, TAKEN);
    assert_eq!(handlings_of_records(&bytes), expected);
    let end = r#"
{"end":"end","answer":0,"records":14,"handling":"taken","preference":0,"drains":[
 {"lock":0,"answer":0,"count":8,"handling":"taken"},REST]}
"#;
    assert_last_lines(&bytes, end);
    let end = r#"
{"end":"end","answer":0,"records":10,"handling":"not a holder","preference":0,"drains":[
 {"lock":0,"answer":0,"count":5,"handling":"taken"},REST]}
"#;
    assert_last_lines(&bytes[..67], end);
}

const STILL_NAMED_LINES: &str = r#"
{"n":10,"kind":"acquire","lock":0,"machine":1,"task":0,"mode":3,"answer":6,"named":0,"handling":null,"preference":0,"state":{
 "decider":{"mode":3,"machine":0,"incarnation":1,"writer":false},
 "agents":[{"mode":3,"holders":[0],"queue":[],"incarnation":0},null,null,null],
 "clients":[{"status":"holding","mode":3,"lost":false,"reason":null},IDLE,IDLE,IDLE,
 IDLE,IDLE,IDLE,IDLE,IDLE,IDLE,IDLE,IDLE,IDLE,IDLE,IDLE,IDLE],
 "wire":[{"kind":"ACQUIRE","to":0,"client":4,"mode":3,
 "granted":true,"rejected":false,"circled":0,"agent":null},
 {"kind":"RELEASE","to":null,"client":4,"mode":null,
 "granted":false,"rejected":false,"circled":1,"agent":null}]},
 "counts":{"agents":1,"marked":1}}
{"end":"end","answer":0,"records":10,"handling":"not a holder","preference":0,"drains":[
 {"lock":0,"answer":0,"count":5,"handling":"taken"},REST]}
"#;

/// D7: the marked ACQUIRE of 1/0 is the first packet that names it, its RELEASE the second.
#[test]
fn refusal_6_in_full() {
    let bytes = [&TAKE[..], &SHARE, &BUSY].concat();
    assert_last_lines(&bytes[..67], STILL_NAMED_LINES);
    let lines = STILL_NAMED_LINES.replace(r#""preference":0"#, r#""preference":1"#);
    let expected = unfolded(&[&lines]);
    assert!(inspected_with(1, &bytes[..67]).ends_with(&expected));
}

/// Answers and fields `named` of the acquires' lines, as they are written; no other line has the field.
fn named_of_acquires(bytes: &[u8]) -> Vec<(String, String)> {
    let text = inspected(bytes);
    let is_acquire = |line: &&str| line.contains(r#","kind":"acquire","#);
    let (acquires, others): (Vec<&str>, Vec<&str>) = text.lines().partition(is_acquire);
    assert!(others.iter().all(|line| !line.contains(r#""named""#)));
    let fields = |line: &str| {
        let (_, rest) = line.split_once(r#","answer":"#).expect("an answer");
        let (answer, rest) = rest
            .split_once(r#","named":"#)
            .expect("the field behind it");
        let (named, _) = rest.split_once(r#","handling":"#).expect("a handling");
        (String::from(answer), String::from(named))
    };
    acquires.into_iter().map(fields).collect()
}

fn assert_named(bytes: &[u8], expected: &[(u8, Option<usize>)]) {
    let words = |&(answer, named): &(u8, Option<usize>)| {
        let named = named.map_or(String::from("null"), |index| index.to_string());
        (answer.to_string(), named)
    };
    let expected: Vec<(String, String)> = expected.iter().map(words).collect();
    assert_eq!(named_of_acquires(bytes), expected);
}

/// The acquire that is refused with 6, and those before and behind it that are accepted.
#[test]
fn named_is_null_beside_a_0() {
    let bytes = [&TAKE[..], &SHARE, &BUSY].concat();
    let expected = [(0, None), (0, None), (6, Some(0)), (0, None)];
    assert_named(&bytes, &expected);
}

/// 1/0 waits while its GRANT and its marked ACQUIRE are on the wire; the other causes come before the wire is looked at, too.
#[test]
fn named_is_null_beside_another_refusal() {
    let calls = [
        8, 0, 1, 0, 0, 1, 0, 3, //
        8, 0, 1, 0, 0, 1, 0, 1, //
        8, 0, 1, 0, 0, 1, 4, 3, //
        8, 0, 1, 0, 0, 4, 0, 3, //
        8, 0, 1, 0, 8, 1, 0, 3,
    ];
    let bytes = [&TAKE[..], &SHARE, &calls].concat();
    let refused = [5, 4, 3, 2, 1].map(|answer| (answer, None));
    let expected = [&[(0, None), (0, None)], &refused[..]].concat();
    assert_named(&bytes, &expected);
}

/// D13, with each RELEASE behind its client's marked ACQUIRE: the FREE is at 0, client c has 1 + 2c and 2 + 2c.
#[test]
fn named_on_the_full_wire() {
    let mut bytes = [&TAKE[..], &[7, 0, 2, 0, 0, 0, 0]].concat();
    let acquire = |number: u8| [8, 0, 1, 0, 0, number / 4, number % 4, 3];
    for number in 0..16 {
        let index = 1 + 2 * number;
        bytes.extend(acquire(number));
        bytes.extend([6, 0, 3, 0, 0, index].repeat(2));
        bytes.extend([7, 0, 2, 0, 0, number / 4, number % 4]);
    }
    let mut expected = vec![(0, None); 17];
    for (number, index) in [(0, 1), (1, 3), (4, 9), (14, 29), (15, 31)] {
        bytes.extend(acquire(number));
        expected.push((6, Some(index)));
    }
    // The FREE is rejected and goes to the end, so that the others move up.
    bytes.extend([6, 0, 3, 0, 0, 0]);
    for (number, index) in [(0, 0), (1, 2), (15, 30)] {
        bytes.extend(acquire(number));
        expected.push((6, Some(index)));
    }
    assert_named(&bytes, &expected);
}

/// Only the FREE of 0/0 is on the wire, and it names nobody: 0/0 may ask.
#[test]
fn named_is_null_where_a_free_is_all() {
    let calls = [
        7, 0, 2, 0, 0, 0, 0, //
        8, 0, 1, 0, 0, 0, 0, 3,
    ];
    let bytes = [&TAKE[..], &calls].concat();
    assert_named(&bytes, &[(0, None), (0, None)]);
}

/// The ACQUIRE of 1/0 comes to machine 0 before the agent does.
const EARLY: [u8; 34] = [
    8, 0, 1, 0, 0, 0, 0, 2, //
    6, 0, 3, 0, 0, 0, //
    8, 0, 1, 0, 0, 1, 0, 2, //
    6, 0, 3, 0, 0, 1, //
    6, 0, 3, 0, 0, 1,
];

/// The drain brings 0/0 its GRANT, sends the ACQUIRE on, queues 1/0, releases 0/0, brings 1/0 the agent in two steps, releases
/// it and ends with the FREE.
#[test]
fn handling_before_a_bad_record_is_given() {
    let bad = [6, 0, 4, 0, 0, 0];
    let bytes = [&EARLY[..], &bad].concat();
    let expected = ["null", "null", "null", "null", NO_AGENT];
    assert_eq!(handlings_of_records(&bytes), expected);
    let end = r#"
{"end":"bad record","answer":12,"records":6,"handling":"no agent","preference":0,"drains":[
 {"lock":0,"answer":0,"count":8,"handling":"taken"},REST]}
"#;
    assert_last_lines(&bytes, end);
}

const CIRCLED_LINES: &str = r#"
{"n":5,"kind":"deliver","lock":0,"index":1,"answer":0,"handling":"no agent","preference":0,"state":{
 "decider":{"mode":2,"machine":0,"incarnation":0,"writer":false},
 "agents":[null,null,null,null],
 "clients":[{"status":"waiting","mode":2,"lost":false,
 "reason":{"kind":"GRANT","index":0,"machine":null,"ahead":null}},IDLE,IDLE,IDLE,
 {"status":"waiting","mode":2,"lost":false,
 "reason":{"kind":"ACQUIRE","index":1,"machine":null,"ahead":null}},IDLE,IDLE,IDLE,
 IDLE,IDLE,IDLE,IDLE,IDLE,IDLE,IDLE,IDLE],
 "wire":[{"kind":"GRANT","to":0,"client":0,"mode":2,
 "granted":false,"rejected":false,"circled":0,
 "agent":{"mode":2,"holders":[],"queue":[],"incarnation":0}},
 {"kind":"ACQUIRE","to":null,"client":4,"mode":2,
 "granted":false,"rejected":false,"circled":1,"agent":null}]},
 "counts":{"agents":1,"marked":0}}
{"end":"end","answer":0,"records":5,"handling":"no agent","preference":0,"drains":[
 {"lock":0,"answer":0,"count":8,"handling":"taken"},REST]}
"#;

/// The ACQUIRE has circled once. The drain goes as above.
#[test]
fn request_that_came_back() {
    assert_last_lines(&EARLY, CIRCLED_LINES);
}

/// After D2, as `BUSY` begins; then the RELEASE of 1/0 goes to machine 0 and back 300 times before the ACQUIRE is taken. Where
/// it goes, and its count, after some of the records.
#[test]
fn release_that_circles_300_times() {
    let circles = [6, 0, 3, 0, 0, 1].repeat(600);
    let taken = [6, 0, 3, 0, 0, 0].repeat(3);
    let bytes = [&TAKE[..], &SHARE, &BUSY[..13], &circles, &taken].concat();
    let text = inspected(&bytes);
    let lines: Vec<&str> = text.lines().collect();
    assert_eq!(lines.len(), 611);
    for (record, to, count) in [
        (7, "null", 0),
        (8, "0", 0),
        (9, "null", 1),
        (10, "0", 1),
        (513, "null", 253),
        (515, "null", 254),
        (516, "0", 254),
        (517, "null", 255),
        (518, "0", 255),
        (519, "null", 255),
        (607, "null", 255),
        (608, "null", 255),
        (609, "0", 255),
    ] {
        let line = lines[record - 1];
        let message = format!(r#"{{"kind":"RELEASE","to":{to},"client":4,"mode":null,"#);
        let rest = format!(r#""granted":false,"rejected":false,"circled":{count},"agent":null}}]"#);
        assert!(line.starts_with(&format!(r#"{{"n":{record},"#)), "{line}");
        assert!(line.contains(&format!("{message}{rest}")), "{line}");
    }
    assert!(lines[609].contains(r#""handling":"taken""#) && lines[609].contains(r#""wire":[]"#));
}

/// A refused record and one that has no handling come behind the one that has.
#[test]
fn handling_is_given_at_the_end() {
    let calls = [
        6, 0, 3, 0, 0, 5, //
        6, 0, 3, 0, 0, 0,
    ];
    let bytes = [&EARLY[..], &calls].concat();
    let expected = ["null", "null", "null", "null", NO_AGENT, "null", "null"];
    assert_eq!(handlings_of_records(&bytes), expected);
    let end = r#"
{"end":"end","answer":0,"records":7,"handling":"no agent","preference":0,"drains":[
 {"lock":0,"answer":0,"count":7,"handling":"taken"},REST]}
"#;
    assert_last_lines(&bytes, end);
}

/// With 10,917 refused deliveries behind them the records are 65,536 bytes.
#[test]
fn overlong_transcript_has_no_handling() {
    let refused = [6, 0, 3, 0, 1, 0].repeat(10_917);
    let bytes = [&EARLY[..], &refused].concat();
    assert_eq!(bytes.len(), 65_536);
    assert_lines(&bytes, &[TOO_LONG]);
}

/// 1/0's ACQUIRE is under way to machine 0 when 0/0 hands the lock back. The drain sends it back, delivers the FREE and makes
/// a new agent; then come the GRANT, the release and the FREE.
#[test]
fn drain_may_end_with_no_agent() {
    let bytes = [
        8, 0, 1, 0, 0, 0, 0, 2, //
        6, 0, 3, 0, 0, 0, //
        6, 0, 3, 0, 0, 0, //
        8, 0, 1, 0, 0, 1, 0, 2, //
        6, 0, 3, 0, 0, 0, //
        7, 0, 2, 0, 0, 0, 0,
    ];
    assert_eq!(handlings_of_records(&bytes), ["null"; 6]);
    let end = r#"
{"end":"end","answer":0,"records":6,"handling":null,"preference":0,"drains":[
 {"lock":0,"answer":0,"count":6,"handling":"no agent"},REST]}
"#;
    assert_last_lines(&bytes, end);
}

/// After `TAKE`: 1/0 wants to write and is queued; 0/1 and 2/0 want to read.
const BEHIND: [u8; 42] = [
    8, 0, 1, 0, 0, 1, 0, 2, //
    6, 0, 3, 0, 0, 0, //
    6, 0, 3, 0, 0, 0, //
    8, 0, 1, 0, 0, 0, 1, 3, //
    8, 0, 1, 0, 0, 2, 0, 3, //
    6, 0, 3, 0, 0, 0,
];

const BEHIND_LINES: &str = r#"
{"n":4,"kind":"acquire","lock":0,"machine":1,"task":0,"mode":2,"answer":0,"named":null,"handling":null,"preference":1,"state":{
 "decider":{"mode":3,"machine":0,"incarnation":0,"writer":false},
 "agents":[{"mode":3,"holders":[0],"queue":[],"incarnation":0},null,null,null],
 "clients":[{"status":"holding","mode":3,"lost":false,"reason":null},IDLE,IDLE,IDLE,
 {"status":"waiting","mode":2,"lost":false,
 "reason":{"kind":"ACQUIRE","index":0,"machine":null,"ahead":null}},IDLE,IDLE,IDLE,
 IDLE,IDLE,IDLE,IDLE,IDLE,IDLE,IDLE,IDLE],
 "wire":[{"kind":"ACQUIRE","to":null,"client":4,"mode":2,
 "granted":false,"rejected":false,"circled":0,"agent":null}]},
 "counts":{"agents":1,"marked":0}}
{"n":5,"kind":"deliver","lock":0,"index":0,"answer":0,"handling":null,"preference":1,"state":{
 "decider":{"mode":3,"machine":0,"incarnation":0,"writer":true},
 "agents":[{"mode":3,"holders":[0],"queue":[],"incarnation":0},null,null,null],
 "clients":[{"status":"holding","mode":3,"lost":false,"reason":null},IDLE,IDLE,IDLE,
 {"status":"waiting","mode":2,"lost":false,
 "reason":{"kind":"ACQUIRE","index":0,"machine":null,"ahead":null}},IDLE,IDLE,IDLE,
 IDLE,IDLE,IDLE,IDLE,IDLE,IDLE,IDLE,IDLE],
 "wire":[{"kind":"ACQUIRE","to":0,"client":4,"mode":2,
 "granted":false,"rejected":false,"circled":0,"agent":null}]},
 "counts":{"agents":1,"marked":0}}
{"n":6,"kind":"deliver","lock":0,"index":0,"answer":0,"handling":"taken","preference":1,"state":{
 "decider":{"mode":3,"machine":0,"incarnation":0,"writer":true},
 "agents":[{"mode":3,"holders":[0],"queue":[{"client":4,"mode":2}],"incarnation":0},
 null,null,null],
 "clients":[{"status":"holding","mode":3,"lost":false,"reason":null},IDLE,IDLE,IDLE,
 {"status":"waiting","mode":2,"lost":false,
 "reason":{"kind":"queue","index":null,"machine":0,"ahead":0}},IDLE,IDLE,IDLE,
 IDLE,IDLE,IDLE,IDLE,IDLE,IDLE,IDLE,IDLE],
 "wire":[]},
 "counts":{"agents":1,"marked":0}}
{"n":7,"kind":"acquire","lock":0,"machine":0,"task":1,"mode":3,"answer":0,"named":null,"handling":null,"preference":1,"state":{
 "decider":{"mode":3,"machine":0,"incarnation":0,"writer":true},
 "agents":[{"mode":3,"holders":[0],
 "queue":[{"client":4,"mode":2},{"client":1,"mode":3}],"incarnation":0},null,null,null],
 "clients":[{"status":"holding","mode":3,"lost":false,"reason":null},{"status":"waiting","mode":3,"lost":false,
 "reason":{"kind":"queue","index":null,"machine":0,"ahead":1}},IDLE,IDLE,
 {"status":"waiting","mode":2,"lost":false,
 "reason":{"kind":"queue","index":null,"machine":0,"ahead":0}},IDLE,IDLE,IDLE,
 IDLE,IDLE,IDLE,IDLE,IDLE,IDLE,IDLE,IDLE],
 "wire":[]},
 "counts":{"agents":1,"marked":0}}
{"n":8,"kind":"acquire","lock":0,"machine":2,"task":0,"mode":3,"answer":0,"named":null,"handling":null,"preference":1,"state":{
 "decider":{"mode":3,"machine":0,"incarnation":0,"writer":true},
 "agents":[{"mode":3,"holders":[0],
 "queue":[{"client":4,"mode":2},{"client":1,"mode":3}],"incarnation":0},null,null,null],
 "clients":[{"status":"holding","mode":3,"lost":false,"reason":null},{"status":"waiting","mode":3,"lost":false,
 "reason":{"kind":"queue","index":null,"machine":0,"ahead":1}},IDLE,IDLE,
 {"status":"waiting","mode":2,"lost":false,
 "reason":{"kind":"queue","index":null,"machine":0,"ahead":0}},IDLE,IDLE,IDLE,
 {"status":"waiting","mode":3,"lost":false,
 "reason":{"kind":"ACQUIRE","index":0,"machine":null,"ahead":null}},IDLE,IDLE,IDLE,
 IDLE,IDLE,IDLE,IDLE],
 "wire":[{"kind":"ACQUIRE","to":null,"client":8,"mode":3,
 "granted":false,"rejected":false,"circled":0,"agent":null}]},
 "counts":{"agents":1,"marked":0}}
{"n":9,"kind":"deliver","lock":0,"index":0,"answer":0,"handling":null,"preference":1,"state":{
 "decider":{"mode":3,"machine":0,"incarnation":0,"writer":true},
 "agents":[{"mode":3,"holders":[0],
 "queue":[{"client":4,"mode":2},{"client":1,"mode":3}],"incarnation":0},null,null,null],
 "clients":[{"status":"holding","mode":3,"lost":false,"reason":null},{"status":"waiting","mode":3,"lost":false,
 "reason":{"kind":"queue","index":null,"machine":0,"ahead":1}},IDLE,IDLE,
 {"status":"waiting","mode":2,"lost":false,
 "reason":{"kind":"queue","index":null,"machine":0,"ahead":0}},IDLE,IDLE,IDLE,
 {"status":"waiting","mode":3,"lost":false,
 "reason":{"kind":"ACQUIRE","index":0,"machine":null,"ahead":null}},IDLE,IDLE,IDLE,
 IDLE,IDLE,IDLE,IDLE],
 "wire":[{"kind":"ACQUIRE","to":0,"client":8,"mode":3,
 "granted":false,"rejected":false,"circled":0,"agent":null}]},
 "counts":{"agents":1,"marked":0}}
{"end":"end","answer":0,"records":9,"handling":"taken","preference":1,"drains":[
 {"lock":0,"answer":0,"count":14,"handling":"taken"},REST]}
"#;

/// The lines of the transcript with the writers' preference.
fn behind_lines() -> String {
    let take = TAKE_LINES.replace(r#""preference":0"#, r#""preference":1"#);
    unfolded(&[&take, BEHIND_LINES])
}

/// The drain queues 2/0 (1); 0/0 releases and 1/0 gets the agent (3), 1/0 releases and 0/1 gets it (3), with a GRANT for 2/0 (2);
/// 0/1 releases (1), 2/0 does (3), and the FREE ends it.
#[test]
fn writers_preference() {
    let bytes = [&TAKE[..], &BEHIND].concat();
    assert_same(&inspected_with(1, &bytes), &behind_lines());
}

/// 0/1 joins, and the decider grants 2/0. The drain shows the GRANT and lists 2/0 (2); 0/0 and 0/1 release (2), 2/0 does (3);
/// 1/0 gets the agent (2) and releases (1), and the FREE ends it.
#[test]
fn readers_preference_of_the_same_transcript() {
    let bytes = [&TAKE[..], &BEHIND].concat();
    let lines = r#"
{"n":9,"kind":"deliver","lock":0,"index":0,"answer":0,"handling":null,"preference":0,"state":{
 "decider":{"mode":3,"machine":0,"incarnation":1,"writer":false},
 "agents":[{"mode":3,"holders":[0,1],"queue":[{"client":4,"mode":2}],"incarnation":0},
 null,null,null],
 "clients":[{"status":"holding","mode":3,"lost":false,"reason":null},
 {"status":"holding","mode":3,"lost":false,"reason":null},IDLE,IDLE,
 {"status":"waiting","mode":2,"lost":false,
 "reason":{"kind":"queue","index":null,"machine":0,"ahead":0}},IDLE,IDLE,IDLE,
 {"status":"waiting","mode":3,"lost":false,
 "reason":{"kind":"GRANT","index":0,"machine":null,"ahead":null}},IDLE,IDLE,IDLE,
 IDLE,IDLE,IDLE,IDLE],
 "wire":[{"kind":"GRANT","to":2,"client":8,"mode":3,
 "granted":false,"rejected":false,"circled":0,"agent":null},
 {"kind":"ACQUIRE","to":0,"client":8,"mode":3,
 "granted":true,"rejected":false,"circled":0,"agent":null}]},
 "counts":{"agents":1,"marked":1}}
{"end":"end","answer":0,"records":9,"handling":"taken","preference":0,"drains":[
 {"lock":0,"answer":0,"count":11,"handling":"taken"},REST]}
"#;
    assert_last_lines(&bytes, lines);
    let text = inspected(&bytes);
    assert!(!text.contains(r#""writer":true"#) && !text.contains(r#""preference":1"#));
}

/// Whatever the records are, the preference stays on each line, that of a lock out of range too.
#[test]
fn preference_is_on_every_line() {
    let bytes = [6, 0, 3, 0, 9, 40, 6, 0, 4, 0, 0, 0];
    let lines = r#"
{"n":1,"kind":"deliver","lock":9,"index":40,"answer":1,"handling":null,"preference":1,"state":null,"counts":null}
{"end":"bad record","answer":12,"records":2,"handling":null,"preference":1,"drains":[{"lock":0,"answer":0,"count":0,"handling":null},REST]}
"#;
    assert_same(&inspected_with(1, &bytes), &unfolded(&[lines]));
    let too_long = TOO_LONG.replace(r#""preference":0"#, r#""preference":1"#);
    assert_same(&inspected_with(1, &overlong()), &unfolded(&[&too_long]));
}

const BAD_PREFERENCE: &str = r#"
{"end":"bad preference","answer":16,"records":0,"handling":null,"preference":0,"drains":[{"lock":0,"answer":0,"count":0,"handling":null},REST]}
"#;

/// No record is run, and neither a bad one nor too many bytes are noticed.
#[test]
fn bad_preference() {
    let behind = [&TAKE[..], &BEHIND].concat();
    for preference in [2, 3, 128, 255] {
        for bytes in [&[][..], &behind, &[6, 0, 4, 0, 0, 0], &overlong()] {
            let found = inspected_with(preference, bytes);
            assert_same(&found, &unfolded(&[BAD_PREFERENCE]));
        }
    }
}

/// What the program writes for a transcript on its standard input.
fn written_by_program(preference: &[&str], bytes: &[u8]) -> String {
    let mut child = Command::new(env!("CARGO_BIN_EXE_reference"))
        .arg("inspect")
        .args(preference)
        .stdin(Stdio::piped())
        .stdout(Stdio::piped())
        .spawn()
        .expect("the program starts");
    // Dropped at the end of the statement, it closes the program's input.
    let written = child.stdin.take().expect("a pipe").write_all(bytes);
    written.expect("the program reads");
    let output = child.wait_with_output().expect("the program ends");
    assert!(output.status.success());
    String::from_utf8(output.stdout).expect("JSON is text")
}

#[test]
fn program_reads_standard_input() {
    let bytes = [&TAKE[..], &EXAMPLE_TAIL].concat();
    let expected = unfolded(&[TAKE_LINES, EXAMPLE_TAIL_LINES]);
    assert_same(&written_by_program(&[], &bytes), &expected);
    let too_long = unfolded(&[TOO_LONG]);
    assert_same(&written_by_program(&[], &overlong()), &too_long);
}

/// A decimal number, of any length; what is none, or above 255, is 255. Further arguments are not looked at.
#[test]
fn program_takes_the_preference() {
    let bytes = [&TAKE[..], &BEHIND].concat();
    let readers = inspected(&bytes);
    for words in [&[][..], &["0"], &["000"], &["0", "1"]] {
        assert_same(&written_by_program(words, &bytes), &readers);
    }
    let long = format!("{}1", "0".repeat(300));
    for words in [&["1"][..], &["01"], &[&long], &["1", "2"], &["1", "-", "x"]] {
        assert_same(&written_by_program(words, &bytes), &behind_lines());
    }
    let bad = unfolded(&[BAD_PREFERENCE]);
    let words = [
        "2",
        "9",
        "10",
        "11",
        "255",
        "256",
        "257",
        "65537",
        "4294967297",
        "18446744073709551616",
        "18446744073709551617",
        "",
        " ",
        " 1",
        "1 ",
        "x",
        "1x",
        "0x1",
        "-1",
        "-0",
        "+1",
        "1.0",
        "--preference",
    ];
    for word in words {
        assert_same(&written_by_program(&[word], &bytes), &bad);
    }
    assert_same(&written_by_program(&["2", "1"], &bytes), &bad);
    assert_same(&written_by_program(&["2"], &overlong()), &bad);
}

/// D2; then the GRANT of 1/0 is lost, at first with the wrong index, and 1/0 gives up.
const LOSE_AND_GIVE_UP: [u8; 32] = [
    6, 0, 6, 0, 0, 1, //
    6, 0, 6, 0, 0, 0, //
    7, 0, 7, 0, 0, 1, 0, //
    7, 0, 7, 0, 0, 1, 0, //
    6, 0, 6, 0, 9, 7,
];

/// The drain after it: the marked ACQUIRE is taken, the RELEASE goes on and is taken, 0/0 hands back, the FREE.
const LOSE_AND_GIVE_UP_LINES: &str = r#"
{"n":6,"kind":"lose","lock":0,"index":1,"answer":18,"handling":null,"preference":0,"state":{
 "decider":{"mode":3,"machine":0,"incarnation":1,"writer":false},
 "agents":[{"mode":3,"holders":[0],"queue":[],"incarnation":0},null,null,null],
 "clients":[{"status":"holding","mode":3,"lost":false,"reason":null},IDLE,IDLE,IDLE,
 {"status":"waiting","mode":3,"lost":false,
 "reason":{"kind":"GRANT","index":0,"machine":null,"ahead":null}},IDLE,IDLE,IDLE,
 IDLE,IDLE,IDLE,IDLE,IDLE,IDLE,IDLE,IDLE],
 "wire":[{"kind":"GRANT","to":1,"client":4,"mode":3,
 "granted":false,"rejected":false,"circled":0,"agent":null},
 {"kind":"ACQUIRE","to":0,"client":4,"mode":3,
 "granted":true,"rejected":false,"circled":0,"agent":null}]},
 "counts":{"agents":1,"marked":1}}
{"n":7,"kind":"lose","lock":0,"index":0,"answer":0,"handling":null,"preference":0,"state":{
 "decider":{"mode":3,"machine":0,"incarnation":1,"writer":false},
 "agents":[{"mode":3,"holders":[0],"queue":[],"incarnation":0},null,null,null],
 "clients":[{"status":"holding","mode":3,"lost":false,"reason":null},IDLE,IDLE,IDLE,
 {"status":"waiting","mode":3,"lost":true,
 "reason":{"kind":"grant lost","index":null,"machine":null,"ahead":null}},IDLE,IDLE,IDLE,
 IDLE,IDLE,IDLE,IDLE,IDLE,IDLE,IDLE,IDLE],
 "wire":[{"kind":"ACQUIRE","to":0,"client":4,"mode":3,
 "granted":true,"rejected":false,"circled":0,"agent":null}]},
 "counts":{"agents":1,"marked":1}}
{"n":8,"kind":"give up","lock":0,"machine":1,"task":0,"answer":0,"handling":null,"preference":0,"state":GIVEN_UP
{"n":9,"kind":"give up","lock":0,"machine":1,"task":0,"answer":17,"handling":null,"preference":0,"state":GIVEN_UP
{"n":10,"kind":"lose","lock":9,"index":7,"answer":1,"handling":null,"preference":0,"state":null,"counts":null}
{"end":"end","answer":0,"records":10,"handling":null,"preference":0,"drains":[
 {"lock":0,"answer":0,"count":5,"handling":"taken"},REST]}
"#;

const GIVEN_UP: &str = r#"{
 "decider":{"mode":3,"machine":0,"incarnation":1,"writer":false},
 "agents":[{"mode":3,"holders":[0],"queue":[],"incarnation":0},null,null,null],
 "clients":[{"status":"holding","mode":3,"lost":false,"reason":null},IDLE,IDLE,IDLE,
 IDLE,IDLE,IDLE,IDLE,IDLE,IDLE,IDLE,IDLE,IDLE,IDLE,IDLE,IDLE],
 "wire":[{"kind":"ACQUIRE","to":0,"client":4,"mode":3,
 "granted":true,"rejected":false,"circled":0,"agent":null},
 {"kind":"RELEASE","to":null,"client":4,"mode":null,
 "granted":false,"rejected":false,"circled":0,"agent":null}]},
 "counts":{"agents":1,"marked":1}}"#;

#[test]
fn lost_grant_and_giving_up() {
    let bytes = [&TAKE[..], &SHARE, &LOSE_AND_GIVE_UP].concat();
    let lines = LOSE_AND_GIVE_UP_LINES.replace("GIVEN_UP", GIVEN_UP);
    assert_lines(&bytes, &[TAKE_LINES, SHARE_LINES, &lines]);
}
