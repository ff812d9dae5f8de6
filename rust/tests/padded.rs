//! Padded size fields: of one field, of units, and of packets as other senders may make them. What is wanted is worked out from how the
//! fields were made.
mod common;
use av1rtp::{lent, Receiver};
use common::Dice;

/// A size field of this value in so many bytes.
fn field(value: usize, used: usize) -> Vec<u8> {
    let mut bytes = common::leb128(value);
    while bytes.len() < used {
        *bytes.last_mut().unwrap() |= 128;
        bytes.push(0);
    }
    bytes
}

/// A size field of this value, padded half of the time; and whether it is.
fn any_field(dice: &mut Dice, value: usize) -> (Vec<u8>, usize) {
    let least = common::leb128(value).len();
    let used = if dice.chance(50) { least + dice.below(9 - least) } else { least };
    (field(value, used), (used > least) as usize)
}

#[test]
fn fields() {
    for value in
        [0, 1, 127, 128, 300, 16_383, 16_384, 2_097_151, 2_097_152, 268_435_455, 268_435_456, 4_294_967_295]
    {
        let least = common::leb128(value).len();
        for used in least..=8 {
            let wanted = lent::SizeField { value: value as u32, used, shortest: used == least };
            assert_eq!(lent::size_field(&[field(value, used), vec![0xFF]].concat()), Ok(wanted));
        }
    }
}

#[test]
fn units() {
    let listed = |unit: &[u8]| lent::list(unit, &mut [0; 20]).map(|listed| (listed.obus, listed.padded));
    assert_eq!(listed(&[0x32, 0x80, 0x00, 0x12, 0x81, 0x00, 0x01]), Ok((1, 2)));
    assert_eq!(listed(&[0x12, 0x80, 0x00]), Ok((0, 1)));
    assert_eq!(listed(&[0x36, 0x80, 0x00, 0x32, 0x02, 0x80, 0x00, 0x30, 0x80, 0x00]), Ok((3, 0)));
    assert_eq!(listed(&[]), Ok((0, 0)));
    let refusal = listed(&[0x32, 0x80, 0x00, 0x32, 0x82, 0x00, 0xA1]).unwrap_err();
    assert_eq!((refusal.number(), refusal.offset()), (7, 3));
    assert_eq!(av1rtp::padded(&[0x32, 0x80, 0x00, 0x32]).unwrap_err().number(), 4);
    // more OBUs than a list begins with
    let many = [0x32, 0x81, 0x00, 0xA1].repeat(500);
    assert_eq!(av1rtp::padded(&many), Ok(500));
    assert_eq!(av1rtp::list(&many).unwrap().len(), 500);
}

#[test]
fn random_units() {
    let mut dice = Dice(21);
    let mut payloader = av1rtp::Payloader::new();
    for _ in 0..3000 {
        let (mut unit, mut wanted) = (Vec::new(), 0);
        for _ in 0..dice.below(7) {
            let length = dice.pick(&[0, 0, 1, 5, 127, 128, 300]);
            let (size, padded) = any_field(&mut dice, length);
            let head = (dice.below(16) << 3) as u8 | 2;
            unit.extend(if dice.chance(30) { vec![head | 4, 0x80] } else { vec![head] });
            unit.extend(size);
            unit.extend(vec![0x80; length]);
            wanted += padded;
        }
        assert_eq!(payloader.padded(&unit), Ok(wanted));
    }
}

#[test]
fn packets() {
    let mut receiver = Receiver::new();
    assert_eq!(receiver.padded(), 0);
    let mut given = |number, payload: &[u8]| {
        let handed = receiver.receive(number, payload).map(<[u8]>::to_vec);
        (handed.map_err(|refusal| refusal.number()), receiver.padded())
    };
    let three = [0x30, 0x81, 0x00, 0x30, 0x81, 0x00, 0x30, 0x32, 0x80, 0x00];
    assert_eq!(given(7, &three), (Ok([0x32, 0x00].repeat(3)), 3));
    // a refusal changes nothing
    assert_eq!(given(7, &three), (Err(14), 3));
    // in an element thrown away; in dropped types; no field at all
    assert_eq!(given(8, &[0xA0, 0x81, 0x00, 0xA1, 0x30]), (Ok(vec![0x32, 0x00]), 1));
    assert_eq!(given(9, &[0x00, 0x83, 0x00, 0x12, 0x80, 0x00, 0x03, 0x7A, 0x80, 0x00]), (Ok(vec![]), 3));
    assert_eq!(given(10, &[0x10, 0x80, 0x00]), (Ok(vec![0x82, 0x01, 0x00]), 0));
    // a size field that is cut counts once, where its OBU is finished
    assert_eq!(given(11, &[0x50, 0x32, 0x82]), (Ok(vec![]), 0));
    assert_eq!(given(12, &[0xC0, 0x81, 0x00, 0x00]), (Ok(vec![]), 1));
    assert_eq!(given(13, &[0x90, 0xA1, 0xA2]), (Ok(vec![0x32, 0x02, 0xA1, 0xA2]), 1));
}

/// The call as it is: bytes and padded fields of one packet.
#[test]
fn lent_packets() {
    let mut out = [0; 8];
    let payload = [0x20, 0x81, 0x00, 0x30, 0x32, 0x80, 0x00];
    let received = lent::receive(&mut lent::State::default(), 7, &payload, &mut [], &mut out);
    assert_eq!(received, Ok(lent::Received { bytes: 4, padded: 2 }));
    let refusal =
        lent::receive(&mut lent::State::default(), 7, &payload, &mut [], &mut out[..3]).unwrap_err();
    assert_eq!((refusal.number(), refusal.offset()), (20, 0));
}

/// OBUs with size fields of any length, each in a packet of its own or cut over some: a length counts in its packet, a size where its
/// OBU ends.
#[test]
fn random_packets() {
    let mut dice = Dice(22);
    let (mut receiver, mut number) = (Receiver::new(), 0u16);
    for _ in 0..3000 {
        let body = dice.pick(&[0, 1, 5, 127, 128]);
        let (size, padded) = any_field(&mut dice, body);
        let obu = [vec![dice.pick(&[0x12, 0x32, 0x7A]) as u8], size, vec![0x80; body]].concat();
        let mut at = 0;
        while at < obu.len() {
            let part = &obu[at..at + 1 + dice.below(obu.len() - at)];
            let last = at + part.len() == obu.len();
            let (has_length, (length, more)) = (dice.chance(50), any_field(&mut dice, part.len()));
            let header = (at > 0) as u8 * 128 + !last as u8 * 64 + !has_length as u8 * 16;
            let length = if has_length { length } else { vec![] };
            receiver.receive(number, &[&[header], &length[..], part].concat()).unwrap();
            assert_eq!(receiver.padded(), has_length as usize * more + last as usize * padded);
            number = number.wrapping_add(1);
            at += part.len();
        }
    }
}
