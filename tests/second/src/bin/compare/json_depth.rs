//! Payloads of 31 to 34 levels and a few more, in mixes of objects and arrays, with faults in front
//! of, at and behind the opening byte of the 33rd.

use second::sample::Rng;

use crate::json_calls::Told;
use crate::tester::Tester;

/// The deepest level that passes.
const DEEPEST: usize = 32;
/// So many of the innermost levels come in each mix.
const MIXED: usize = 6;
const RANDOM_MIXES: u64 = 100;

#[derive(Clone, Copy, PartialEq)]
enum Kind {
    Object,
    Array,
}

use Kind::{Array, Object};

/// Levels in one another, and where each of them opens.
struct Nest {
    bytes: Vec<u8>,
    openings: Vec<usize>,
}

impl Nest {
    /// The outermost has to be an object. White space stands wherever it may.
    fn open(kinds: &[Kind], space: &str) -> Nest {
        let mut nest = Nest {
            bytes: space.as_bytes().to_vec(),
            openings: Vec::new(),
        };
        for (level, kind) in kinds.iter().enumerate() {
            // The levels inside of an object need a name, all but the innermost of all.
            let named = *kind == Object && level + 1 < kinds.len();
            nest.openings.push(nest.bytes.len());
            let opening = match kind {
                Object if named => format!("{{{space}\"\"{space}:{space}"),
                Object => format!("{{{space}"),
                Array => format!("[{space}"),
            };
            nest.bytes.extend_from_slice(opening.as_bytes());
        }
        nest
    }

    fn closed(kinds: &[Kind], space: &str) -> Nest {
        let mut nest = Nest::open(kinds, space);
        for kind in kinds.iter().rev() {
            nest.bytes.push(if *kind == Object { b'}' } else { b']' });
            nest.bytes.extend_from_slice(space.as_bytes());
        }
        nest.bytes.push(0);
        nest
    }

    /// What the rules say if nothing goes on at this byte: the 33rd level in front of it comes first.
    fn told_at(&self, fault: usize) -> Told {
        match self.openings.get(DEEPEST) {
            Some(&opening) if opening < fault => Told::TooDeep(opening),
            _ => Told::No(fault),
        }
    }

    fn told(&self) -> Told {
        match self.openings.get(DEEPEST) {
            Some(&opening) => Told::TooDeep(opening),
            None => Told::Yes,
        }
    }
}

pub fn run(tester: &mut Tester) {
    tester.begin_group("json-depth");
    for levels in 31..=34 {
        for (number, kinds) in mixes(levels).iter().enumerate() {
            // White space makes a nest long, so that not each one has it.
            let space = ["", "", "", " ", "\r\n"][number % 5];
            let name = (1000 * levels + number) as u64;
            check(tester, name, &Nest::closed(kinds, space));
        }
    }
    no_value_may_begin(tester);
    a_long_way_down(tester);
    siblings(tester);
    tester.end_json_group("");
}

/// Each mix of the innermost levels inside of objects, of arrays and of both by turns, and any mixes.
fn mixes(levels: usize) -> Vec<Vec<Kind>> {
    let outer: [fn(usize) -> Kind; 4] = [
        |_| Object,
        |_| Array,
        |level| if level % 2 == 0 { Object } else { Array },
        |level| if level % 2 == 1 { Object } else { Array },
    ];
    let mut mixes = Vec::new();
    for kind_of in outer {
        for inner in 0..1 << MIXED {
            let mut mix: Vec<Kind> = (0..levels).map(kind_of).collect();
            for place in 0..MIXED {
                mix[levels - 1 - place] = if inner >> place & 1 == 0 {
                    Object
                } else {
                    Array
                };
            }
            mixes.push(mix);
        }
    }
    for seed in 0..RANDOM_MIXES {
        let mut rng = Rng::new(seed + 1000 * levels as u64);
        mixes.push((0..levels).map(|_| rng.pick(&[Object, Array])).collect());
    }
    mixes.iter_mut().for_each(|mix| mix[0] = Object);
    mixes
}

/// Whole, cut at each byte, and with a byte at each place that is never allowed.
fn check(tester: &mut Tester, name: u64, nest: &Nest) {
    tester.quick_json_case(("levels", name, 0), &nest.bytes, Some(nest.told()));
    let mut wrong = nest.bytes.clone();
    for at in 0..nest.bytes.len() {
        let label = ("cut levels", name, at as u64);
        tester.quick_json_case(label, &nest.bytes[..at], Some(nest.told_at(at)));
        for byte in [0x01, 0xFF] {
            wrong[at] = byte;
            let label = ("fault in levels", name, at as u64);
            tester.quick_json_case(label, &wrong, Some(nest.told_at(at)));
        }
        wrong[at] = nest.bytes[at];
    }
}

/// Opening bytes behind a text that a level may begin with: where a value may begin, and where none.
const OPENED: [(Kind, &str, bool); 20] = [
    (Array, "", true),
    (Array, "0,", true),
    (Array, "[],", true),
    (Array, "{\"a\":0} , ", true),
    (Array, "0", false),
    (Array, "0 ", false),
    (Array, "\"\"", false),
    (Array, "true", false),
    (Array, "[]", false),
    (Array, "{}", false),
    (Object, "\"\":", true),
    (Object, "\"\":0,\"\": ", true),
    (Object, "\"\":[],\"\":", true),
    (Object, "", false),
    (Object, " ", false),
    (Object, "\"\"", false),
    (Object, "\"\":0", false),
    (Object, "\"\":0,", false),
    (Object, "\"\":[]", false),
    (Object, "\"\":{} , ", false),
];

/// In a level that is allowed, the last but one, the last, and the first that is not; what stands
/// behind the opening byte is not looked at, be it right or not.
fn no_value_may_begin(tester: &mut Tester) {
    for levels in 30..=33 {
        for (number, (kind, text, begins)) in OPENED.into_iter().enumerate() {
            for (place, behind) in ["", "]", "}", "\0", "{[", "[[[[", "\"\":0}", "\u{1}", "é"]
                .into_iter()
                .enumerate()
            {
                for opening in ["{", "["] {
                    let mut kinds = vec![Object; levels];
                    kinds[levels - 1] = kind;
                    let mut nest = Nest::open(&kinds, "");
                    nest.bytes.extend_from_slice(text.as_bytes());
                    let at = nest.bytes.len();
                    nest.bytes.extend_from_slice(opening.as_bytes());
                    nest.bytes.extend_from_slice(behind.as_bytes());
                    let told = opened(&nest, levels, at, (text, begins));
                    let label = ("opening", (100 * levels + number) as u64, place as u64);
                    tester.quick_json_case(label, &nest.bytes, told);
                }
            }
        }
    }
}

/// Of a level that is allowed and goes on nothing is known but that the programs agree.
fn opened(nest: &Nest, levels: usize, at: usize, (text, begins): (&str, bool)) -> Option<Told> {
    // A text that opens a level itself comes first.
    let inner = text.find(['[', '{']);
    let inner = inner.map(|place| at - text.len() + place);
    match inner {
        _ if levels > DEEPEST => Some(nest.told()),
        Some(inner) if levels == DEEPEST => Some(Told::TooDeep(inner)),
        _ if !begins => Some(Told::No(at)),
        _ if levels == DEEPEST => Some(Told::TooDeep(at)),
        _ => None,
    }
}

/// So deep that a program with a level to a call of its own would run out of stack.
fn a_long_way_down(tester: &mut Tester) {
    for opening in ["[", "{\"\":", "[[{\"a\":", " [ "] {
        let bytes = ["{\"\":", &opening.repeat(200_000)].concat();
        let openings = bytes.match_indices(['{', '[']).map(|(at, _)| at);
        let at = openings.into_iter().nth(DEEPEST).unwrap();
        let label = ("a long way down", opening.len() as u64, 0);
        tester.quick_json_case(label, bytes.as_bytes(), Some(Told::TooDeep(at)));
    }
}

/// Levels that are closed again do not count.
fn siblings(tester: &mut Tester) {
    for count in [1, 2, 31, 32, 33, 34, 100, 1000] {
        for (number, value) in ["[]", "{}", "[[[]]]", "{\"\":[{}]}"]
            .into_iter()
            .enumerate()
        {
            for levels in [1, 2, 16, 32] {
                let depth = levels + value.matches(['{', '[']).count();
                let values = vec![value; count].join(",");
                let (front, behind) = ("[".repeat(levels - 1), "]".repeat(levels - 1));
                let values = match levels {
                    1 => value.to_string(),
                    _ => values,
                };
                let payload = format!("{{\"\":{front}{values}{behind}}}\0");
                // Up to the 33rd each opens inside of the one in front of it.
                let openings: Vec<usize> = payload
                    .match_indices(['{', '['])
                    .map(|(at, _)| at)
                    .collect();
                let told = match depth > DEEPEST {
                    true => Told::TooDeep(openings[DEEPEST]),
                    false => Told::Yes,
                };
                let label = ("siblings", (10 * count + number) as u64, levels as u64);
                tester.quick_json_case(label, payload.as_bytes(), Some(told));
            }
        }
    }
}
