//! JSON payloads to measure, of about as many bytes as are asked for.

use second::sample::Rng;

pub struct Shape {
    pub name: &'static str,
    /// A piece with a number of its own; the payload has as many as fit.
    piece: fn(&mut Rng) -> String,
    /// What stands between the pieces and around them.
    front: &'static str,
    comma: &'static str,
    end: &'static str,
}

const IN_ARRAY: Shape = Shape {
    name: "",
    piece: |_| String::new(),
    front: "{\"values\":[",
    comma: ",",
    end: "]}\0",
};

const IN_STRING: Shape = Shape {
    name: "",
    piece: |_| String::new(),
    front: "{\"value\":\"",
    comma: "",
    end: "\"}\0",
};

pub const SHAPES: [Shape; 8] = [
    Shape {
        name: "strings",
        piece: |rng| {
            let words = rng.between(1, 8);
            format!("\"{}\"", plain(rng, words))
        },
        ..IN_ARRAY
    },
    Shape {
        name: "one long string",
        piece: |rng| plain(rng, 8) + " ",
        ..IN_STRING
    },
    Shape {
        name: "strings with escapes",
        piece: |rng| {
            let [words, more] = [0, 0].map(|_| rng.between(1, 2));
            format!(
                "\"{}\\n{}\\u00e9\\\"\"",
                plain(rng, words),
                plain(rng, more)
            )
        },
        ..IN_ARRAY
    },
    Shape {
        name: "strings in UTF-8",
        piece: |rng| {
            let word = rng.pick(&["señor", "größer", "Дубна", "漢字かな", "😀 done", "naïve"]);
            format!("\"{word} {word}\"")
        },
        ..IN_ARRAY
    },
    Shape {
        name: "numbers",
        piece: number,
        ..IN_ARRAY
    },
    Shape {
        name: "32 levels, objects and arrays",
        piece: |_| "{\"a\":[".repeat(15) + "0" + &"]}".repeat(15),
        ..IN_ARRAY
    },
    Shape {
        name: "32 levels, arrays alone",
        piece: |_| "[".repeat(30) + &"]".repeat(30),
        ..IN_ARRAY
    },
    RECORD,
];

/// A job's result as a broker's module answers it.
pub const RECORD: Shape = Shape {
    name: "a result record",
    piece: sample,
    front: "{\"id\":\"f2ZbqTr9u7\",\"userid\":5588,\"urgency\":16,\"state\":\"INACTIVE\",\
            \"name\":\"bench.run\",\"cwd\":\"/p/lustre1/bench/runs/2024-11-07\",\"nnodes\":64,\
            \"annotations\":{\"sched\":{\"queue\":\"pbatch\",\"t_estimate\":null}},\"samples\":[",
    comma: ",",
    end: "],\"success\":true,\"exception\":{\"occurred\":false},\"note\":\"\"}\0",
};

/// The same bytes twice, in another order: arrays in one another down to the 32nd level, or side by
/// side, each with a number and all with their commas.
pub const DEEP: Shape = Shape {
    name: "32 levels",
    piece: |_| "[1,".repeat(29) + "[1]" + &"]".repeat(29),
    ..IN_ARRAY
};

pub const FLAT: Shape = Shape {
    name: "flat",
    piece: |_| "[1],".repeat(29) + "[1]",
    ..IN_ARRAY
};

impl Shape {
    /// At most so many bytes, and hardly fewer.
    pub fn payload(&self, bytes: usize) -> Vec<u8> {
        let mut rng = Rng::new(bytes as u64);
        let mut payload = self.front.to_string();
        let mut comma = "";
        loop {
            let piece = (self.piece)(&mut rng);
            if payload.len() + comma.len() + piece.len() + self.end.len() > bytes {
                return (payload + self.end).into_bytes();
            }
            payload += comma;
            payload += &piece;
            comma = self.comma;
        }
    }
}

fn plain(rng: &mut Rng, words: usize) -> String {
    let words: Vec<&str> = (0..words)
        .map(|_| {
            rng.pick(&[
                "a",
                "the",
                "rank",
                "broker",
                "message",
                "of",
                "connection",
                "lost",
                "overlay",
                "resource.acquire",
                "reset",
                "in",
                "job-manager",
                "retry",
            ])
        })
        .collect();
    words.join(" ")
}

fn number(rng: &mut Rng) -> String {
    let whole = rng.next() >> rng.between(1, 63);
    match rng.below(4) {
        0 => format!("{}", whole >> 40),
        1 => format!("-{whole}"),
        2 => format!("{}.{:06}", whole >> 44, rng.below(1_000_000)),
        _ => format!(
            "{}.{}e-{:02}",
            rng.below(10),
            rng.below(100_000),
            rng.below(40)
        ),
    }
}

fn sample(rng: &mut Rng) -> String {
    let (rank, cores) = (rng.below(64), rng.between(1, 48));
    let start = 1_730_900_000.0 + rng.below(100_000_000) as f64 / 1000.0;
    let took = rng.below(1_000_000) as f64 / 1000.0;
    let line = plain(rng, 7);
    format!(
        "{{\"rank\":{rank},\"host\":\"tuolumne{rank:04}\",\"cores\":\"0-{cores}\",\
         \"t_start\":{start:.6},\"seconds\":{took:.3},\"status\":0,\"ok\":true,\"gpu\":null,\
         \"loads\":[{:.2},{:.2},{:.2}],\"log\":\"{line}\\n\"}}",
        took / 7.0,
        took / 11.0,
        took / 13.0
    )
}
