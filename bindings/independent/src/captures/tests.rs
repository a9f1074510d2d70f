use super::*;
use crate::varint;
use std::collections::HashSet;

#[test]
fn numbers_are_written_as_they_are_read() {
    let mut random = Random::new(1);
    let mut sizes = HashSet::new();
    for _ in 0..10_000 {
        let number = number_of_any_size(&mut random);
        let mut shortest = Vec::new();
        push_number(&mut shortest, &mut random, Form::Shortest, number);
        assert_eq!(varint::read(&shortest), Some((number, shortest.len())));
        let mut any = Vec::new();
        push_number(&mut any, &mut random, Form::Any, number);
        assert_eq!(varint::read(&any), Some((number, any.len())));
        assert!(shortest.len() <= any.len());
        sizes.insert((shortest.len(), any.len()));
    }
    assert_eq!(sizes.len(), 10);
}

#[test]
fn a_seed_gives_the_same_captures_again() {
    let first: Vec<_> = Captures::new(5).take(200).collect();
    let second: Vec<_> = Captures::new(5).take(200).collect();
    assert!(first == second);
    let other: Vec<_> = Captures::new(6).take(200).collect();
    assert!(first != other);
}

#[test]
fn a_round_has_every_kind() {
    let kinds: HashSet<_> = Captures::new(7).take(100).map(|c| c.kind).collect();
    assert_eq!(kinds.len(), 13);
    assert!(Captures::new(7)
        .take(100)
        .filter(|c| c.kind == Kind::Long)
        .all(|c| c.bytes.len() > 65_536));
}

#[test]
fn written_cases_hold_every_cut() {
    let written = written();
    let empty = written.iter().filter(|c| c.bytes.is_empty()).count();
    assert_eq!(empty, 9);
    assert!(written.iter().any(|c| c.bytes == [0x00, 0x03, 0x61]));
}

#[test]
fn address_values_are_well_formed_and_spoiled_ones_are_not() {
    use crate::addresses::{check, AddressType, Malformed};
    let mut random = Random::new(9_484);
    let mut reasons = Vec::new();
    for capsule_type in AddressType::ALL {
        let mut lengths = HashSet::new();
        for _ in 0..3_000 {
            let value = address_value(&mut random, capsule_type);
            assert_eq!(check(capsule_type, &value), Ok(()), "{value:?}");
            lengths.insert(value.len());
            let spoiled = spoiled_value(&mut random, capsule_type);
            reasons.extend(check(capsule_type, &spoiled).err());
        }
        assert!(lengths.iter().any(|&length| length > 1_000));
    }
    assert!(reasons.len() > 4_500);
    assert!(Malformed::ALL.iter().all(|why| reasons.contains(why)));
}
