//! Every command with each of its parts left out, doubled, emptied, and longer and shorter by one.

use crate::command_bounds::check;
use crate::command_parts::{Kind, Sample};
use crate::tester::Tester;

#[derive(Clone, Copy, PartialEq, Eq)]
enum Change {
    LeftOut,
    Doubled,
    Emptied,
    Longer,
    Shorter,
}

/// What a part is.
#[derive(Clone, Copy, PartialEq, Eq)]
enum Role {
    Mark,
    Number,
    Name,
    Address,
    Separator,
    Body,
}

pub fn run(tester: &mut Tester) {
    use Change::*;
    for body_parts in [1, 2, 3, 15, 16] {
        for sample in Sample::each(body_parts) {
            for at in 0..sample.parts.len() {
                for change in [LeftOut, Doubled, Emptied, Longer, Shorter] {
                    let role = role_of(sample.kind, at);
                    let number = number_of(sample.kind, role, change, body_parts);
                    let label = 100 * body_parts + at;
                    check(
                        tester,
                        "changed",
                        label,
                        changed(&sample, at, change),
                        number,
                    );
                }
            }
        }
    }
}

fn role_of(kind: Kind, at: usize) -> Role {
    match at {
        0 => Role::Mark,
        1 => Role::Number,
        2 if kind.has_name() => Role::Name,
        2 => Role::Address,
        3 if kind.has_address() => Role::Separator,
        _ => Role::Body,
    }
}

fn changed(sample: &Sample, at: usize, change: Change) -> Sample {
    let mut sample = sample.clone();
    let part = &mut sample.parts[at];
    match change {
        Change::LeftOut => drop(sample.parts.remove(at)),
        Change::Doubled => sample.parts.insert(at, sample.parts[at].clone()),
        Change::Emptied => part.clear(),
        Change::Longer => part.push(b'x'),
        Change::Shorter => drop(part.pop()),
    }
    sample
}

/// The paper's number. Where a part is left out or doubled, those behind it move up or down: a body
/// part comes to be the name or the separator, the command's number the name, and so on.
fn number_of(kind: Kind, role: Role, change: Change, body_parts: usize) -> u32 {
    use Change::*;
    let too_few = !kind.has_body() || body_parts == 1;
    let too_many = !kind.has_body() || body_parts == 16;
    match (role, change) {
        (Role::Mark, Doubled) => 33,
        (Role::Mark, _) => 32,
        (Role::Number, LeftOut | Emptied | Longer | Shorter) => 33,
        (_, LeftOut) if too_few => 34,
        (_, Doubled) if too_many => 34,
        (Role::Number, Doubled) if kind.has_name() => 35,
        (Role::Number, Doubled) => 36,
        (Role::Name, LeftOut | Emptied) => 35,
        (Role::Address, Doubled) => 37,
        (Role::Address, _) => 36,
        (Role::Separator, LeftOut | Longer) => 37,
        _ => 0,
    }
}
