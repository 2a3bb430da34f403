//! Cases of change request 2026-09: who the next receiver is, and each refusal.
use super::hex;
use crate::afp::{next_receiver, next_station_sum, read, Part, Receiver};
use Receiver::{Broadcast, Refused, Station};

/// The broadcast that the scope paper works out, with its check octets.
const TO_ALL: &str = "FF 01 F0 0C 00 04 41 42 31 43 00 F9 85 DA";
/// From AB1C to N2DSY, with data.
const TO_SECOND: &str = "76 01 F0 12 0A 04 41 42 31 43 05 4E 32 44 53 59 00 F6 64 61 74 61 7E AB";
/// From AB1C by way of N2DSY, to W2VY-DIGI next.
const TO_THIRD: &str =
    "8D 01 F0 1C 10 04 41 42 31 43 05 4E 32 44 53 59 09 57 32 56 59 2D 44 49 47 49 00 AB 8F C8";
/// From AB1C to A-!l, whose field has the sum FF.
const SUM_FF: &str = "00 01 F0 11 0A 04 41 42 31 43 04 41 2D 21 6C 00 09 F1 66";

fn station(place: usize, size: usize) -> Receiver {
    Station(Part { place, size })
}

/// A frame with some octets changed.
fn changed(frame: &str, changes: &[(usize, u8)]) -> Receiver {
    let mut frame = hex(frame);
    for &(place, octet) in changes {
        frame[place] = octet;
    }
    next_receiver(&frame)
}

/// Frames that the full reader accepts: both name the same station, or both say broadcast.
#[test]
fn next_receivers() {
    let cases = [
        (TO_ALL, 0, Broadcast),
        (TO_SECOND, 2, station(10, 6)),
        (TO_THIRD, 3, station(16, 10)),
        (SUM_FF, 2, station(10, 5)),
    ];
    for (frame, next, receiver) in cases {
        let reading = read(&hex(frame));
        assert_eq!((reading.number, reading.next), (0, next), "{frame}");
        assert_eq!(next_receiver(&hex(frame)), receiver, "{frame}");
    }
}

/// What is given back of each kind of answer.
#[test]
fn numbers_and_fields() {
    let given = |receiver: Receiver| {
        let Part { place, size } = receiver.field();
        (receiver.number(), place, size)
    };
    assert_eq!(given(next_receiver(&hex(TO_ALL))), (0, 0, 0));
    assert_eq!(given(next_receiver(&hex(TO_SECOND))), (0, 10, 6));
    assert_eq!(given(next_receiver(&[])), (30, 0, 0));
}

/// Version, protocol, the other fields, header sum, data and check octets are not looked at.
#[test]
fn nothing_else_is_looked_at() {
    for fill in [0x00, 0x41, 0xFF] {
        let mut frame = [fill; 14];
        (frame[0], frame[3], frame[4]) = (0xFF, 12, 0);
        assert_eq!(next_receiver(&frame), Broadcast);
        let mut frame = [fill; 24];
        (frame[0], frame[3], frame[4]) = (0x76, 0x12, 10);
        frame[10..16].copy_from_slice(b"\x05N2DSY");
        assert_eq!(next_receiver(&frame), station(10, 6));
    }
}

#[test]
fn length_and_offset() {
    let of_length = |length| {
        let mut frame = hex(TO_ALL);
        frame.resize(length, 0);
        next_receiver(&frame)
    };
    for length in [0, 1, 4, 5, 13, 2561] {
        assert_eq!(of_length(length), Refused(30), "{length}");
    }
    for length in [14, 15, 2559, 2560] {
        assert_eq!(of_length(length), Broadcast, "{length}");
    }
    // 24 octets: the header has 22 at most
    for offset in [0, 11, 23, 24, 254, 255] {
        assert_eq!(changed(TO_SECOND, &[(3, offset)]), Refused(34), "{offset}");
    }
    for offset in [0x12, 0x13, 22] {
        assert_eq!(changed(TO_SECOND, &[(3, offset)]), station(10, 6));
    }
}

/// The data offset is 18: 7 to 16 are places, of which 15 and 16 leave no room for an ID, whatever stands there.
#[test]
fn places_pointed_at() {
    for place in [1, 5, 6, 17, 18, 255] {
        assert_eq!(changed(TO_SECOND, &[(4, place)]), Refused(36), "{place}");
    }
    for place in [7, 9, 11, 14, 15, 16] {
        assert_eq!(changed(TO_SECOND, &[(4, place)]), Refused(35), "{place}");
    }
    for octet in 0..=255 {
        for place in [15, 16] {
            let changes = [(4, place), (place.into(), octet)];
            assert_eq!(changed(TO_SECOND, &changes), Refused(35));
        }
    }
    // a place where no field of the frame begins will do: "Y" with a length before it
    let sum = next_station_sum(&[1, b'Y']);
    let changes = [(4, 14), (14, 1), (0, sum)];
    assert_eq!(changed(TO_SECOND, &changes), station(14, 2));
    assert_eq!(changed(TO_SECOND, &[(4, 7), (7, 0)]), Refused(35));
}

/// N2DSY's field ends at 15, three before the data offset.
#[test]
fn fields_pointed_at() {
    assert_eq!(changed(TO_SECOND, &[(3, 0x11)]), Refused(35));
    for size in [0, 6, 7, 13, 14, 255] {
        assert_eq!(changed(TO_SECOND, &[(10, size)]), Refused(35), "{size}");
    }
    for octet in [0x00, 0x20, b'-', b'n', 0xFF] {
        assert_eq!(changed(TO_SECOND, &[(15, octet)]), Refused(35), "{octet}");
    }
    // within the rule, but with another sum
    assert_eq!(changed(TO_SECOND, &[(10, 4)]), Refused(37));
    assert_eq!(changed(TO_SECOND, &[(15, b'Z')]), Refused(37));
    assert_eq!(changed(TO_SECOND, &[(14, b'-')]), Refused(37));
}

/// Octet 0 is exact: FF in a broadcast alone, and a sum of FF stands as 0.
#[test]
fn octet_0() {
    for octet in 0..=255 {
        let answer = |frame, right| {
            let expected = match octet == right {
                true => next_receiver(&hex(frame)),
                false => Refused(37),
            };
            assert_eq!(changed(frame, &[(0, octet)]), expected, "{octet}");
        };
        answer(TO_ALL, 0xFF);
        answer(TO_SECOND, 0x76);
        answer(TO_THIRD, 0x8D);
        answer(SUM_FF, 0);
    }
}

/// Each refusal against those that come behind it: 30, 34, 36, 35, 37.
#[test]
fn order_of_refusals() {
    // in 24 octets, each beside a wrong octet 0
    let (offset, place, field) = ((3, 23), (4, 17), (10, 0));
    let refused = |changes: &[(usize, u8)]| {
        let with_37 = [changes, &[(0, 0)]].concat();
        assert_eq!(changed(TO_SECOND, changes), changed(TO_SECOND, &with_37));
        changed(TO_SECOND, &with_37)
    };
    assert_eq!(refused(&[offset]), Refused(34));
    assert_eq!(refused(&[offset, place]), Refused(34));
    assert_eq!(refused(&[offset, field]), Refused(34));
    assert_eq!(refused(&[place]), Refused(36));
    // 36 before 35: octet 4 points at a length of none, past the last place
    assert_eq!(refused(&[place, (17, 0)]), Refused(36));
    assert_eq!(refused(&[(4, 6), (6, 0)]), Refused(36));
    assert_eq!(refused(&[field]), Refused(35));
    // 30 before all of them
    for changes in [[(0, 0)], [offset], [place], [field]] {
        for length in [13, 2561] {
            let mut frame = hex(TO_SECOND);
            let [(at, octet)] = changes;
            frame[at] = octet;
            frame.resize(length, 0);
            assert_eq!(next_receiver(&frame), Refused(30));
        }
    }
}
