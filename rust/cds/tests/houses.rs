//! Tests of a house in Rust, with CDS_LIB if the library is elsewhere.

use cds::{House, HouseFault, Reply};

const LINES: [(&[u8], &[u8]); 5] = [
    (b"house 1 00000000000a", b"1 ok\n"),
    (b"root", b"2 ok\n"),
    (b"create 1 lpr", b"3 ok 1@00000000000a\n"),
    (b"create 1 lpr", b"4 refused EntryExists\n"),
    (b"crete 1 lpr", b"5 fault UnknownCommand 1\n"),
];

// Keeps the record of a reply, and gives its text.
fn keep(reply: Result<Reply<'_>, HouseFault>, records: &mut Vec<Vec<u8>>) -> Vec<u8> {
    let reply = reply.unwrap();
    records.extend(reply.record().map(<[u8]>::to_vec));
    reply.kept().unwrap()
}

fn example(house: &mut House) -> Vec<Vec<u8>> {
    let mut records = Vec::new();
    assert_eq!(keep(house.start(), &mut records), b"0 new\n");
    for (line, text) in LINES {
        assert_eq!(keep(house.line(line), &mut records), text);
    }
    records
}

#[test]
fn a_house_goes_on_from_its_records() {
    let records = example(&mut House::new().unwrap());
    assert_eq!(records.len(), 4);
    let (mut house, mut later) = (House::open(&records).unwrap(), Vec::new());
    assert_eq!(keep(house.start(), &mut later), b"0 house 1 00000000000a\n0 last create 1 lpr\n0 ok 1@00000000000a\n");
    later.clear();
    assert_eq!(keep(house.next_segment(), &mut later), b"");
    assert_eq!(keep(house.line(b"delete 1 lpr"), &mut later), b"1 ok 2@00000000000a\n");
    assert!(House::open(&later).is_ok());
}

#[test]
fn a_reply_that_is_dropped_is_not_kept() {
    let mut house = House::new().unwrap();
    assert_eq!(house.line(b"root").err(), Some(HouseFault::NotStarted));
    drop(house.start().unwrap());
    assert_eq!(house.line(b"root").err(), Some(HouseFault::NotKept));
    assert_eq!(house.next_segment().err(), Some(HouseFault::NotKept));
    assert_eq!(house.start().err(), Some(HouseFault::Started));
}

#[test]
fn lines_and_records_that_are_none() {
    let mut house = House::new().unwrap();
    house.start().unwrap().kept().unwrap();
    for octet in (0..0x20).chain(0x7F..=0xFF) {
        assert_eq!(house.line(&[octet]).err(), Some(HouseFault::BadLine));
    }
    assert_eq!(house.line(&[b' '; 4081]).err(), Some(HouseFault::BadLine));
    assert_eq!(House::open(&[b""]).err(), Some(HouseFault::NoRecord));
    let mut records = example(&mut House::new().unwrap());
    records.push(records[3].clone());
    assert_eq!(House::open(&records).err(), Some(HouseFault::NoRecord));
}
