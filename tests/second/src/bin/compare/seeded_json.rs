//! Seeded JSON payloads: right ones, cut ones, and ones with damage.

use second::sample::Rng;

use crate::json_calls::{JsonCase, Told, RECORD};
use crate::json_documents::{document, Document};
use crate::seeded::Run;
use crate::tester::Tester;

pub fn documents(tester: &mut Tester, run: &Run) {
    tester.begin_group("json");
    tester.set_hint(format!("compare --seed {} --group json", run.seed));
    for number in run.from..run.from + run.cases {
        let mut rng = Rng::for_case(run.seed, "json", number);
        tester.case("case", number, run.seed, |tester| {
            seeded_document(tester, &mut rng)
        });
    }
    tester.end_json_group(&format!("seed {}; ", run.seed));
}

fn seeded_document(tester: &mut Tester, rng: &mut Rng) {
    let Document {
        mut bytes,
        too_deep,
    } = document(rng);
    let whole = too_deep.map_or(Told::Yes, Told::TooDeep);
    let len = bytes.len();
    let told = match rng.below(8) {
        0 | 1 => Some(whole),
        2 => {
            let more = rng.pick(&[&b"\0"[..], b" ", b"\n", b"{}\0", b",", b"\xFF\xFF"]);
            bytes.extend_from_slice(more);
            Some(told_at(len, too_deep))
        }
        3 => {
            every_cut(tester, &bytes, too_deep);
            Some(whole)
        }
        4 => {
            bytes.truncate(rng.below(len));
            Some(told_at(bytes.len(), too_deep))
        }
        _ => {
            damage(rng, &mut bytes);
            None
        }
    };
    check(tester, rng, &bytes, told);
}

/// What the rules say if nothing goes on at this byte: a level too deep in front of it comes first.
fn told_at(fault: usize, too_deep: Option<usize>) -> Told {
    match too_deep {
        Some(opening) if opening < fault => Told::TooDeep(opening),
        _ => Told::No(fault),
    }
}

/// Each length, where that does not take too long.
fn every_cut(tester: &mut Tester, bytes: &[u8], too_deep: Option<usize>) {
    for len in 0..bytes.len().min(400) {
        tester.quick_json(&bytes[..len], Some(told_at(len, too_deep)));
    }
}

/// A byte changed, put in or taken out; now and then a piece doubled or left out.
fn damage(rng: &mut Rng, bytes: &mut Vec<u8>) {
    let at = rng.below(bytes.len());
    let byte = match rng.once_in(2) {
        true => rng.byte(),
        false => rng.pick(b"{}[]\":,\\0-.eE \0\x80\xC0\xED\xF4"),
    };
    let end = (at + rng.below(8)).min(bytes.len());
    match rng.below(8) {
        0 => bytes.insert(at, byte),
        1 => {
            bytes.remove(at);
        }
        2 => bytes.extend_from_within(at..end),
        3 => {
            bytes.drain(at..end);
        }
        4 => bytes[at] ^= 1 << rng.below(8),
        _ => bytes[at] = byte,
    }
}

fn check(tester: &mut Tester, rng: &mut Rng, payload: &[u8], told: Option<Told>) {
    let case = JsonCase {
        payload,
        behind: rng.pick(&[&b""[..], b"\0", b"}\0", b"\"}]}\0"]),
        record_len: match rng.once_in(64) {
            true => rng.below(RECORD),
            false => rng.between(RECORD, 20),
        },
    };
    tester.json(&case, told);
}
