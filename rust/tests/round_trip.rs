//! What is sent comes back: all OBUs without loss, all but those of the lost packet with it; and one train, one receiver.
mod common;
use av1rtp::{lent, train, Reason, Receiver};
use common::{wire, Dice};

/// The kept OBUs of a unit as they are handed out, and for each the packets that carry it.
fn expected(unit: &[u8], mtu: usize) -> Vec<(Vec<u8>, std::ops::RangeInclusive<usize>)> {
    let plan = av1rtp::plan(unit, mtu).unwrap();
    let carries = |i: usize, k: usize| {
        let p = &plan.packets[k];
        p.first_obu_index <= i && i < p.first_obu_index + p.num_obu_elements
    };
    let packets = 0..plan.packets.len();
    let carriers = |i| packets.clone().filter(move |&k| carries(i, k));
    (0..plan.obus.len())
        .map(|i| (wire(unit, &plan.obus[i]), carriers(i).next().unwrap()..=carriers(i).next_back().unwrap()))
        .collect()
}

#[test]
fn without_loss_all_obus_come_out() {
    let mut dice = Dice(2);
    let mut receiver = Receiver::new();
    let mut number = 65_000u16;
    let mut payloader = av1rtp::Payloader::new();
    for _ in 0..2000 {
        let (unit, mtu) = (dice.unit(), dice.mtu().max(3));
        let mut handed = Vec::new();
        for payload in payloader.payload(mtu, &unit).unwrap() {
            handed.extend_from_slice(receiver.receive(number, payload).unwrap());
            number = number.wrapping_add(1);
        }
        assert_eq!(handed, expected(&unit, mtu).into_iter().flat_map(|(obu, _)| obu).collect::<Vec<u8>>());
        assert_eq!(receiver.open(), 0);
    }
}

#[test]
fn a_lost_packet_loses_its_obus_and_no_other() {
    let mut dice = Dice(3);
    let mut lost_obus = 0;
    for _ in 0..2000 {
        let (unit, mtu) = (dice.unit(), dice.mtu().max(3));
        let payloads = av1rtp::payload(&unit, mtu).unwrap();
        if payloads.is_empty() {
            continue;
        }
        let lost = dice.below(payloads.len());
        let first = dice.next() as u16;
        let mut receiver = Receiver::new();
        let mut handed = Vec::new();
        for (k, payload) in payloads.iter().enumerate().filter(|(k, _)| *k != lost) {
            let number = first.wrapping_add(k as u16);
            handed.extend_from_slice(receiver.receive(number, payload).unwrap());
            // repeated, and late: not ahead
            assert_eq!(receiver.receive(number, payload).unwrap_err().reason(), Reason::NotAhead);
        }
        let obus = expected(&unit, mtu);
        lost_obus += obus.iter().filter(|(_, packets)| packets.contains(&lost)).count();
        let stays = obus.into_iter().filter(|(_, packets)| !packets.contains(&lost));
        assert_eq!(handed, stays.flat_map(|(obu, _)| obu).collect::<Vec<u8>>());
    }
    assert!(lost_obus > 1000);
}

/// Two excerpts, each numbered from the same number on. One receiver fuses them; two do not.
#[test]
fn two_trains_need_two_receivers() {
    let one = av1rtp::payload(&[0x32, 0x02, 0xA1, 0xA2], 3).unwrap();
    let other = av1rtp::payload(&[0x32, 0x02, 0xB1, 0xB2], 3).unwrap();
    let mut fused = Receiver::new();
    assert_eq!(fused.receive(41, &one[0]), Ok(&[][..]));
    assert_eq!(fused.receive(42, &other[1]), Ok(&[0x32, 0x02, 0xA1, 0xB2][..])); // an OBU of neither
    for (train, obu) in [(one, [0x32, 0x02, 0xA1, 0xA2]), (other, [0x32, 0x02, 0xB1, 0xB2])] {
        let mut receiver = Receiver::new();
        assert_eq!(receiver.receive(41, &train[0]), Ok(&[][..]));
        assert_eq!(receiver.receive(42, &train[1]), Ok(&obu[..]));
    }
}

#[test]
fn a_small_store_refuses_a_long_fragment() {
    let unit = [&[0x32, 0x64][..], &[7; 100]].concat();
    let payloads = av1rtp::payload(&unit, 10).unwrap();
    let mut receiver = Receiver::with_store(20);
    let refusals: Vec<u32> = (0..payloads.len())
        .filter_map(|k| receiver.receive(k as u16, &payloads[k]).err().map(|r| r.number()))
        .collect();
    assert_eq!(refusals[0], 19);
    assert!(receiver.open() <= 20);
    let mut enough = Receiver::with_store(101);
    let handed: Vec<u8> =
        (0..payloads.len()).flat_map(|k| enough.receive(k as u16, &payloads[k]).unwrap().to_vec()).collect();
    assert_eq!(handed, unit);
}

#[test]
fn a_refusal_changes_nothing() {
    let mut state = lent::State::new(true, 7, 3);
    let (mut store, mut out) = ([1, 2, 3, 4], [9; 8]);
    let before = (state, store, out);
    let mut refused = |number, payload: &[u8]| {
        let refusal = lent::receive(&mut state, number, payload, &mut store, &mut out).unwrap_err();
        assert_eq!((state, store, out), before);
        assert_eq!(refusal.offset(), 0);
        refusal.number()
    };
    assert_eq!(refused(8, &[]), 13);
    assert_eq!(refused(7, &[0x10, 0x30]), 14);
    assert_eq!(refused(8, &[0x98, 0x30]), 15);
    assert_eq!(refused(8, &[0x20]), 16);
    assert_eq!(refused(8, &[0x10]), 17);
    assert_eq!(refused(8, &[0x10, 0x34]), 18);
    assert_eq!(refused(8, &[0x50, 0x30, 1, 2, 3, 4]), 19);
    assert_eq!(refused(8, &[0x10, 0x30, 1, 2, 3, 4, 5, 6, 7]), 20);
    let mut impossible = lent::State::new(true, 7, 5);
    assert_eq!(
        lent::receive(&mut impossible, 8, &[0x10, 0x30], &mut [0; 4], &mut []).unwrap_err().number(),
        12
    );
    assert_eq!((impossible.begun(), impossible.last(), impossible.open()), (true, 7, 5));
}

/// The clip of `examples/`: packed, its train is `examples/clip.train`; received, its OBUs come out.
#[test]
fn a_clip_to_its_train_and_back() {
    let input = std::fs::read(common::repository("examples/clip.in")).unwrap();
    let wanted = std::fs::read(common::repository("examples/clip.train")).unwrap();
    let two = |at: usize| u16::from_be_bytes([input[at], input[at + 1]]);
    let mtu = two(1) as usize;
    let mut writer = train::Writer::new(mtu, two(3));
    let (mut at, mut obus) = (5, Vec::new());
    while at < input.len() {
        let length = u32::from_be_bytes(input[at..at + 4].try_into().unwrap()) as usize;
        let unit = &input[at + 4..at + 4 + length];
        for payload in &av1rtp::payload(unit, mtu).unwrap() {
            writer.push(payload).unwrap();
        }
        obus.extend(expected(unit, mtu).into_iter().flat_map(|(obu, _)| obu));
        at += 4 + length;
    }
    assert!(writer.as_bytes() == wanted);
    let mut receiver = Receiver::new();
    let mut handed = Vec::new();
    for packet in train::Packets::new(&wanted).unwrap() {
        let packet = packet.unwrap();
        handed.extend_from_slice(receiver.receive(packet.number, packet.payload).unwrap());
    }
    assert!(handed == obus);
}

/// A unit of one OBU with a size field, of so many bytes.
fn one_obu(bytes: usize, seed: u64) -> Vec<u8> {
    let length =
        (1..9).map(|field| bytes - 1 - field).find(|&n| common::leb128(n).len() == bytes - 1 - n).unwrap();
    let mut dice = Dice(seed);
    [vec![0x32], common::leb128(length), (0..length).map(|_| dice.next() as u8).collect()].concat()
}

/// Units packed into a train of this version, and what the receiver makes of it: their OBUs.
fn to_a_train_and_back(units: &[Vec<u8>], mtu: usize, version: u8) -> Vec<usize> {
    let mut writer = train::Writer::new(mtu, 65_535);
    let mut payloader = av1rtp::Payloader::new();
    let mut lengths = Vec::new();
    for unit in units {
        for payload in payloader.payload(mtu, unit).unwrap() {
            assert!(payload.len() <= mtu);
            lengths.push(payload.len());
            writer.push(payload).unwrap();
        }
    }
    assert_eq!(writer.version(), version);
    let train = writer.into_bytes();
    let width = if version == 1 { 2 } else { 4 };
    assert_eq!(train[0], version);
    assert_eq!(train.len(), 1 + lengths.iter().map(|n| n + width + 2).sum::<usize>());
    let packets = train::Packets::new(&train).unwrap();
    assert_eq!(packets.version(), version);
    let mut receiver = Receiver::new();
    let mut handed = Vec::new();
    for packet in packets {
        let packet = packet.unwrap();
        handed.extend_from_slice(receiver.receive(packet.number, packet.payload).unwrap());
    }
    let wanted: Vec<u8> =
        units.iter().flat_map(|unit| expected(unit, mtu)).flat_map(|(obu, _)| obu).collect();
    assert!(handed == wanted);
    assert_eq!(receiver.open(), 0);
    lengths
}

/// One payload that is just as long as the mtu allows, and an OBU that needs a second one.
#[test]
fn a_payload_of_a_megabyte() {
    let most = av1rtp::MTU_LIMIT;
    let whole = [one_obu(most, 1)];
    assert_eq!(to_a_train_and_back(&whole, most, 2), [most - 2]);
    assert_eq!(to_a_train_and_back(&whole, most - 3, 2), [most - 3, 2]);
    assert_eq!(to_a_train_and_back(&whole, 65_533, 1).len(), 17);
    // no size field: the OBU is as long as the unit, and two bytes longer than what a packet holds whole
    let bare = [vec![0x30], vec![0xA5; most - 1]].concat();
    let lengths = to_a_train_and_back(&[bare.clone(), vec![0x32, 0x00], bare], most, 2);
    assert_eq!(lengths, [most, 2, 2, most, 2]);
}

#[test]
fn several_units_at_mtu_70_000() {
    let mut dice = Dice(6);
    let mut units: Vec<Vec<u8>> =
        [69_998, 70_002, 70_003, 70_004, 140_000, 300_000, 5].map(|n| one_obu(n, n as u64)).into();
    units.push((0..40).flat_map(|n| one_obu(7_000 + n, 9)).collect());
    units.extend((0..20).map(|_| dice.unit()));
    let lengths = to_a_train_and_back(&units, 70_000, 2);
    assert!(lengths.iter().filter(|&&n| n > train::SHORT_PAYLOAD).count() > 5);
    assert_eq!(lengths.iter().max(), Some(&70_000));
    for mtu in [65_533, 65_534] {
        to_a_train_and_back(&units, mtu, if mtu == 65_533 { 1 } else { 2 });
    }
}

#[test]
fn the_longest_payloads_and_fragments() {
    let payload = [&[0x10, 0x30][..], &vec![7; 1_000_000]].concat();
    let mut receiver = Receiver::new();
    assert_eq!(receiver.receive(7, &payload).unwrap().len(), 1_000_004);
    assert_eq!(receiver.receive(8, &[&payload[..], &vec![7; 48_574]].concat()).unwrap().len(), 1_048_578);
    assert_eq!(receiver.receive(9, &vec![0x10; 1_048_577]).unwrap_err().number(), 13);
    // the greatest open fragment, closed by the longest payload
    let mut receiver = Receiver::new();
    assert_eq!(receiver.receive(7, &[&[0x50, 0x30][..], &vec![7; 1_048_574]].concat()), Ok(&[][..]));
    assert_eq!(receiver.receive(8, &[0xD0, 7, 7]).unwrap_err().number(), 19);
    assert_eq!(receiver.receive(8, &[0xD0, 7]), Ok(&[][..]));
    assert_eq!(receiver.open(), 1_048_576);
    assert_eq!(receiver.receive(9, &[&[0x90][..], &vec![7; 1_048_575]].concat()).unwrap().len(), 2_097_154);
}

#[test]
fn trains_that_are_cut_or_broken() {
    let numbers = |bytes: &[u8]| {
        train::Packets::new(bytes)
            .unwrap()
            .map(|p| p.map(|p| p.number).map_err(|r| r.number()))
            .collect::<Vec<_>>()
    };
    for (mtu, longest, width) in [(65_533, 65_533, 2), (65_534, 1_048_576, 4)] {
        let mut writer = train::Writer::new(mtu, 9);
        assert_eq!(writer.push(&[0x10, 0x30]), Ok(9));
        assert_eq!(writer.push(&[0x10, 0x08]), Ok(10));
        assert_eq!(writer.push(&[]).unwrap_err().number(), 13);
        assert_eq!(writer.push(&vec![0; longest + 1]).unwrap_err().number(), 13);
        assert_eq!(writer.push(&vec![0; longest]), Ok(11));
        assert_eq!(writer.next_number(), 12);
        let train = writer.into_bytes();
        let record = width + 4;
        assert_eq!(train.len(), 1 + 2 * record + width + 2 + longest);
        assert_eq!(numbers(&train), [Ok(9), Ok(10), Ok(11)]);
        assert_eq!(numbers(&train[..train.len() - 1]), [Ok(9), Ok(10), Err(22)]);
        assert_eq!(numbers(&train[..1 + record]), [Ok(9)]);
        for cut in 1..record {
            assert_eq!(numbers(&train[..1 + record + cut]), [Ok(9), Err(22)]);
            assert_eq!(numbers(&train[..1 + 2 * record + cut]), [Ok(9), Ok(10), Err(22)]);
        }
        assert_eq!(numbers(&train[..1 + 2 * record]), [Ok(9), Ok(10)]);
    }
    assert_eq!(numbers(&[1, 0, 2, 0, 0, 0]), [Err(23)]);
    assert_eq!(numbers(&[2, 0, 0, 0, 2, 0, 0, 0]), [Err(23)]);
    assert_eq!(numbers(&[2, 0, 3, 0, 0, 0]), [Err(22)]);
    assert_eq!((numbers(&[1]), numbers(&[2])), (vec![], vec![]));
    assert_eq!(train::Packets::new(&[]).unwrap_err().number(), 21);
    for version in [0, 3, 255] {
        assert_eq!(train::Packets::new(&[version, 0, 3, 0, 0, 0]).unwrap_err().number(), 21);
    }
}

/// The calls as they are: any width but 4 counts as 2, and bytes behind the fields stay.
#[test]
fn widths() {
    assert_eq!(lent::train_head(&[1]), Ok(lent::TrainHead { version: 1, width: 2 }));
    assert_eq!(lent::train_head(&[2]), Ok(lent::TrainHead { version: 2, width: 4 }));
    for width in [0, 1, 2, 3, 4, 5, 6, usize::MAX] {
        let mut head = [0xA5; 6];
        lent::train_record_head(0x0102_0304, 0xFFFE, width, &mut head);
        let wanted = if width == 4 { [1, 2, 3, 4, 0xFF, 0xFE] } else { [3, 4, 0xFF, 0xFE, 0xA5, 0xA5] };
        assert_eq!(head, wanted);
        let train: &[u8] = if width == 4 { &[2, 0, 0, 0, 3, 0, 7, 0x10] } else { &[1, 0, 3, 0, 7, 0x10] };
        let place = lent::RecordPlace { number: 7, start: train.len() - 1, length: 1 };
        assert_eq!(lent::train_record(train, width, 1), Ok(Some(place)));
        for past in [train.len(), train.len() + 1, usize::MAX] {
            assert_eq!(lent::train_record(train, width, past), Ok(None));
        }
    }
}

#[test]
fn size_fields() {
    let read = |bytes: &[u8]| lent::size_field(bytes).map(|field| (field.value, field.used, field.shortest));
    assert_eq!(read(&[0xAC, 0x02, 0xFF]), Ok((300, 2, true)));
    assert_eq!(read(&[0x80, 0x00]), Ok((0, 2, false)));
    assert_eq!(read(&[0x80, 0x80, 0x80, 0x80, 0x80, 0x80, 0x80, 0x00]), Ok((0, 8, false)));
    assert_eq!(read(&[0xFF; 7]).unwrap_err().number(), 5);
    assert_eq!(read(&[0xFF; 8]).unwrap_err().number(), 6);
    assert_eq!(read(&[0x80, 0x80, 0x80, 0x80, 0x10]).unwrap_err().number(), 6);
}

#[test]
fn every_reason_has_its_number_and_words() {
    for number in (1..=23).chain([31]) {
        let reason = Reason::from_number(number).unwrap();
        assert_eq!(reason as u32, number);
        assert!(!reason.words().is_empty());
    }
    assert!([0, 24, 30, 32].iter().all(|&number| Reason::from_number(number).is_none()));
}
