//! The byte at fault among routes, which goes by position: the first malformed one of 64, else the
//! 65th, be it malformed or not.

use crate::draft::Draft;
use crate::repairs::Repairs;
use crate::tester::{ReadCase, Tester};

/// Ways to be no route.
const WAYS: [fn(&mut Vec<u8>); 10] = [
    |route| route[0] = b'A',
    |route| route[0] = b'-',
    |route| route[23] = b'0',
    |route| route[36] = b'0',
    |route| route.truncate(1),
    |route| route.truncate(36),
    |route| route.push(0),
    |route| route.resize(254, b'0'),
    |route| route.resize(255, b'0'),
    |route| route.resize(300, b'0'),
];

pub fn run(tester: &mut Tester, repairs: &mut Repairs) {
    for kind in [1, 2] {
        for count in [1, 2, 3, 33, 63, 64, 65] {
            for at in 0..count {
                for way in 0..WAYS.len() {
                    let draft = malformed(kind, count, &[(at, way)]);
                    check(tester, repairs, ("one malformed", at, way), &draft, at);
                }
            }
        }
    }
    two_malformed(tester, repairs);
    the_65th(tester, repairs);
}

/// So many routes, with these spoiled in some way. Beside 65 of them there is no place for a
/// payload: a 69th part would come first.
fn malformed(kind: u8, count: usize, spoiled: &[(usize, usize)]) -> Draft {
    let payload = (count < 65).then_some(&b"payload"[..]);
    let mut draft = Draft::routed(kind, count, b"kvs.get", payload);
    for &(at, way) in spoiled {
        WAYS[way](&mut draft.routes[at]);
    }
    draft
}

/// The route of this number is told. All in front of it are right and take 38 bytes each.
fn check(
    tester: &mut Tester,
    repairs: &mut Repairs,
    (what, a, b): (&'static str, usize, usize),
    draft: &Draft,
    number: usize,
) {
    let size = if draft.routes[number].len() < 255 {
        1
    } else {
        5
    };
    let told = [8, (8 + 38 * number + size) as u32];
    let bytes = draft.bytes();
    tester.case(what, a as u64, b as u64, |tester| {
        tester.fault(&ReadCase::fault(&bytes), Some(told));
        repairs.one_after_another(tester, &bytes);
    });
}

/// The first of two counts. If there are 65, the last is always one to be told, malformed or not.
fn two_malformed(tester: &mut Tester, repairs: &mut Repairs) {
    for count in [2, 3, 64, 65] {
        for first in 0..count {
            for second in first + 1..count {
                let ways = [(first + second) % WAYS.len(), (first + 3) % WAYS.len()];
                let draft = malformed(1, count, &[(first, ways[0]), (second, ways[1])]);
                check(
                    tester,
                    repairs,
                    ("two malformed", first, second),
                    &draft,
                    first,
                );
            }
        }
    }
}

/// With nothing else wrong, and with all that comes later: a topic and a nodeid.
fn the_65th(tester: &mut Tester, repairs: &mut Repairs) {
    for kind in [1, 2] {
        let mut draft = malformed(kind, 65, &[]);
        check(tester, repairs, ("the 65th", kind as usize, 0), &draft, 64);
        draft.topic = Some(b"kvs".to_vec());
        draft.set_field(12, u32::MAX - 1);
        check(tester, repairs, ("the 65th", kind as usize, 1), &draft, 64);
        // All malformed: the first.
        draft.routes.iter_mut().for_each(|route| route[0] = b'G');
        check(
            tester,
            repairs,
            ("all malformed", kind as usize, 65),
            &draft,
            0,
        );
    }
}
