//! The byte at fault behind parts of every kind of size.

use crate::draft::{frame_with, header, push_part, route, Place};
use crate::repairs::Repairs;
use crate::tester::{ReadCase, Tester};

/// Lengths at which sizes change, and others.
const LENGTHS: [usize; 7] = [0, 1, 253, 254, 255, 256, 400];

type Check<'a> = dyn FnMut(&'static str, &[u8], [usize; 2]) + 'a;

pub fn run(tester: &mut Tester, repairs: &mut Repairs) {
    let mut number = 0;
    let mut check = |what: &'static str, body: &[u8], told: [usize; 2]| {
        let bytes = frame_with(body);
        let told = told.map(|number| number as u32);
        number += 1;
        tester.case(what, number, told[0] as u64, |tester| {
            tester.fault(&ReadCase::fault(&bytes), Some(told));
            repairs.one_after_another(tester, &bytes);
        });
    };
    for front in fronts() {
        wrong_sizes(&front, &mut check);
        wrong_headers(&front, &mut check);
    }
    for routes in [0, 1, 2, 63, 64] {
        wrong_topics(routes, None, &mut check);
        for len in LENGTHS {
            wrong_topics(routes, Some(len), &mut check);
        }
    }
    parts_too_many(&mut check);
}

/// The lengths of the parts in front: all rows of up to three, and long rows of each.
fn fronts() -> Vec<Vec<usize>> {
    let mut rows = vec![vec![]];
    let mut longest = rows.clone();
    for _ in 0..3 {
        let longer = |row: &Vec<usize>| LENGTHS.map(|len| [&row[..], &[len]].concat());
        longest = longest.iter().flat_map(longer).collect();
        rows.extend(longest.clone());
    }
    for len in LENGTHS {
        rows.extend([10, 66, 67].map(|count| vec![len; count]));
    }
    rows
}

/// A body of parts of these lengths.
fn body_of(lengths: &[usize]) -> Vec<u8> {
    let mut body = Vec::new();
    for &len in lengths {
        push_part(&mut body, &vec![0x61; len], false);
    }
    body
}

/// Adds a part and tells where it lies in the frame.
fn add(body: &mut Vec<u8>, part: &[u8]) -> Place {
    let size = 8 + body.len();
    push_part(body, part, false);
    Place {
        size,
        data: 8 + body.len() - part.len(),
    }
}

/// A size or data that passes the end, and 4-byte sizes below 255 with right parts behind them.
fn wrong_sizes(front: &[usize], check: &mut Check) {
    let good = body_of(front);
    let at = 8 + good.len();
    let ends: [&[u8]; 11] = [
        &[1],
        &[5, 1, 2],
        &[254; 254],
        &[255],
        &[255, 0],
        &[255, 0, 0, 0],
        &[255, 0, 0, 0, 0],
        &[255, 0, 0, 0, 254],
        &[255, 0, 0, 1, 0],
        &[255, 0, 1, 0, 255],
        &[255; 300],
    ];
    for end in ends {
        check("wrong size", &[&good, end].concat(), [4, at]);
    }
    for len in [0, 1, 20, 254] {
        let mut body = good.clone();
        push_part(&mut body, &vec![9; len], true);
        push_part(&mut body, &header(8, 0, 1, 2), false);
        check("4-byte size below 255", &body, [4, at]);
    }
}

/// Last parts of other lengths than a header has, and headers with each byte wrong.
fn wrong_headers(front: &[usize], check: &mut Check) {
    let good = body_of(front);
    for len in [0, 1, 19, 21, 37, 254, 255, 256, 300] {
        let mut body = good.clone();
        let place = add(&mut body, &vec![0x8E; len]);
        check("header length", &body, [6, place.size]);
    }
    let changes: [(usize, &[u8]); 4] = [
        (0, &[0x00, 0x01, 0x8F, 0x0E]),
        (1, &[0x00, 0x02, 0x8E, 0xFF]),
        (2, &[0x00, 0x03, 0x05, 0x09, 0x10, 0x80, 0xFF]),
        (3, &[0x80, 0x81, 0x8B, 0xFF]),
    ];
    for (at, values) in changes {
        for &value in values {
            let mut last = header(1, 0x09, 1, 2);
            last[at] = value;
            // All that comes after it in the order is wrong as well.
            last[at + 1..4].fill(0xFF);
            let mut body = good.clone();
            let place = add(&mut body, &last);
            check("header byte", &body, [20 + at, place.data + at]);
        }
    }
    let mut body = good;
    let place = add(&mut body, &header(8, 0x02, 1, 2));
    check("parts disagree", &body, [7, place.data]);
}

/// Right routes, then a topic of each length that is not of the form, then a payload, and a header
/// with a wrong field, which comes later.
fn wrong_topics(routes: u64, payload: Option<usize>, check: &mut Check) {
    let topics: [&[u8]; 9] = [
        b"",
        b"\0",
        b"log",
        b"lo\0g\0",
        &[b't'; 253],
        &[b't'; 254],
        &[b't'; 255],
        &[b't'; 300],
        &[0; 256],
    ];
    for topic in topics {
        let mut body = Vec::new();
        (0..routes).for_each(|number| push_part(&mut body, &route(number), false));
        push_part(&mut body, &[], false);
        let place = add(&mut body, topic);
        payload.map(|len| push_part(&mut body, &vec![0; len], false));
        let flags = if payload.is_some() { 0x0B } else { 0x09 };
        push_part(&mut body, &header(1, flags, u32::MAX - 1, 2), false);
        check("topic", &body, [9, place.data]);
    }
}

/// The 69th part, of whatever size byte, behind 68 of each length.
fn parts_too_many(check: &mut Check) {
    for len in LENGTHS {
        for longer in LENGTHS {
            let front: Vec<usize> = (0..68).map(|at| [len, longer][at % 2]).collect();
            let good = body_of(&front);
            for first in [0, 1, 20, 254, 255] {
                let body = [&good[..], &[first]].concat();
                check("69th part", &body, [5, 8 + good.len()]);
            }
        }
    }
}
