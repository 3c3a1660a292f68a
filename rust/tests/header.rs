//! The names, the numbers and the version are those of the C header.

use jikhvanto::{kind, sys, Cause, Refusal, Why};
use std::fmt::Debug;

const HEADER: &str = include_str!("../../include/jikhvanto.h");

/// The names of an enum of the header, without `JK_`, and their numbers.
fn named(of: &str) -> Vec<(&'static str, u64)> {
    let (_, behind) = HEADER.split_once(&format!("enum {of} {{")).unwrap();
    let (inside, _) = behind.split_once("};").unwrap();
    inside
        .lines()
        .filter_map(|line| line.trim().strip_prefix("JK_"))
        .map(pair)
        .collect()
}

/// `NAME = 1, ..`
fn pair(text: &'static str) -> (&'static str, u64) {
    let (name, behind) = text.split_once(" = ").unwrap();
    let number = behind.split(|c: char| !c.is_ascii_digit()).next().unwrap();
    (name, number.parse().unwrap())
}

/// `KeyOff` as the header writes it, `KEY_OFF`, and `Bit2` too, `BIT_2`.
fn shouted(name: &str) -> String {
    let mut shouted = String::new();
    for letter in name.chars() {
        if !letter.is_lowercase() && !shouted.is_empty() {
            shouted.push('_');
        }
        shouted.push(letter.to_ascii_uppercase());
    }
    shouted
}

/// `FirstWord` of `FirstWord { bit: 0 }`, as the header writes it.
fn name(of: impl Debug) -> String {
    let text = format!("{of:?}");
    shouted(text.split(' ').next().unwrap())
}

/// The refusal with this number, and 7 in the place behind it.
fn refusal(number: u64) -> Option<Refusal> {
    let mut answer = [0; sys::ANSWER];
    answer[..2].copy_from_slice(&[number, 7]);
    Refusal::from_answer(&answer)
}

#[test]
fn refusals() {
    let named = named("jk_number");
    assert_eq!(named[0], ("ACCEPTED", 0));
    assert_eq!(refusal(0), None);
    for (written, number) in &named[1..] {
        let refusal = refusal(*number).unwrap();
        assert_eq!(name(refusal), *written);
        assert_eq!(refusal.number(), *number);
        assert!(!refusal.to_string().is_empty());
    }
    assert_eq!(named.len(), 19);
    let basic = refusal(15).unwrap();
    assert_eq!(basic, Refusal::BasicOnly { place: 7 });
    assert!(basic.to_string().contains("place 7 "));
}

#[test]
#[should_panic(expected = "does not name: 18")]
fn no_refusal() {
    refusal(18);
}

/// The cause with this number, in the place of the header's `JK_CAUSE`.
fn cause(number: u64) -> Option<Cause> {
    let places = named("jk_place");
    let (_, place) = places.iter().find(|(name, _)| *name == "CAUSE").unwrap();
    let mut answer = [0; sys::ANSWER];
    answer[*place as usize] = number;
    Cause::from_answer(&answer)
}

#[test]
fn causes() {
    let causes = [
        ("CAUSE_NONE", None),
        ("CAUSE_WORD", Some(Cause::Word)),
        ("CAUSE_BIT2", Some(Cause::Bit2)),
    ];
    let named = named("jk_cause").into_iter();
    let named: Vec<_> = named.map(|(name, number)| (name, cause(number))).collect();
    assert_eq!(named, causes);
}

#[test]
#[should_panic(expected = "does not name: 3")]
fn no_cause() {
    cause(3);
}

#[test]
fn conditions() {
    let conditions = [
        Why::Stands { k: 0 },
        Why::FirstWord { bit: 0 },
        Why::Bit2,
        Why::SecondWord { bit: 0 },
        Why::NoPair,
    ];
    let named = named("jk_condition");
    assert_eq!(named.len(), conditions.len());
    for (i, why) in conditions.iter().enumerate() {
        assert_eq!((name(why).as_str(), i as u64), named[i]);
    }
}

#[test]
fn kinds() {
    let kinds = [
        ("KIND_STAGE", kind::STAGE.into()),
        ("KIND_COMMIT", kind::COMMIT.into()),
        ("KIND_READ", kind::READ.into()),
        ("KIND_DROP", kind::DROP.into()),
    ];
    assert_eq!(named("jk_kind"), kinds);
}

#[test]
fn lengths_and_version() {
    let says = |text: String| assert!(HEADER.contains(&text), "{text}");
    says(format!("#define JK_ANSWER {} ", sys::ANSWER));
    says(format!("#define JK_STATE {} ", sys::STATE));
    says(format!("#define JK_STREAM_OCTETS {} ", sys::STREAM_OCTETS));
    says(format!(
        "#define JK_VERSION \"{}\"\n",
        env!("CARGO_PKG_VERSION")
    ));
    says(format!(
        "#define JK_VERSION_MAJOR {}\n",
        env!("CARGO_PKG_VERSION_MAJOR")
    ));
    says(format!(
        "#define JK_VERSION_MINOR {}\n",
        env!("CARGO_PKG_VERSION_MINOR")
    ));
    says(format!(
        "#define JK_VERSION_PATCH {}\n",
        env!("CARGO_PKG_VERSION_PATCH")
    ));
}
