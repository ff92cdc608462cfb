//! What the orders of refusals share: faults that are put into something right, and a count of the
//! numbers that met.

use crate::tester::Tester;

/// A fault at a stage of the order.
pub struct Fault<Stage, Base, Attempt> {
    pub stage: Stage,
    pub number: u32,
    /// Whether it can be put into this base.
    pub fits: fn(&Base) -> bool,
    pub apply: fn(&mut Attempt),
}

pub fn fault<Stage, Base, Attempt>(
    stage: Stage,
    number: u32,
    fits: fn(&Base) -> bool,
    apply: fn(&mut Attempt),
) -> Fault<Stage, Base, Attempt> {
    Fault {
        stage,
        number,
        fits,
        apply,
    }
}

/// Every two of the numbers must have met in some case, but for those that never can.
pub fn covered<const N: usize>(
    tester: &mut Tester,
    pairs: &[[bool; N]; N],
    numbers: &[usize],
    never: &[[usize; 2]],
) -> String {
    let mut met = 0;
    for &low in numbers {
        for &high in numbers.iter().filter(|&&high| high > low) {
            if never.contains(&[low, high]) {
                continue;
            }
            tester.case("two numbers met", low as u64, high as u64, |tester| {
                tester.require(pairs[low][high], || "no case has both".to_string());
            });
            met += pairs[low][high] as u32;
        }
    }
    format!("{met} pairs of numbers met")
}

pub fn in_order(a: u32, b: u32) -> [usize; 2] {
    [a.min(b) as usize, a.max(b) as usize]
}
