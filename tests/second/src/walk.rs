//! A walk: steps from broker to broker, until one has no next.

use crate::floor::{Floor, Tables};
use crate::frame::{Refusal, MAX_BODY, PREFIX_LEN};
use crate::step::{step, Answer, Stepped};

/// Room for every frame.
pub const MIN_BUFFER: usize = PREFIX_LEN + MAX_BODY;

#[derive(Clone, Copy, Debug, PartialEq, Eq)]
pub struct Walked {
    /// The last step.
    pub stepped: Stepped,
    pub rank: u32,
    pub links: u32,
}

/// A walk that was refused, and where.
#[derive(Clone, Copy, Debug, PartialEq, Eq)]
pub struct Stopped {
    pub refusal: Refusal,
    pub rank: u32,
    pub links: u32,
}

/// Nobody writes the tables meanwhile, so they are checked once. Every forward of a request adds a
/// route, of which there are at most 64, and every forward of a response takes one away: so it ends.
pub fn walk(tables: Tables, entry: u32, buffer: &mut [u8]) -> Result<Walked, Stopped> {
    let (mut rank, mut links) = (entry, 0);
    let stopped = |refusal, rank, links| Stopped {
        refusal,
        rank,
        links,
    };
    if buffer.len() < MIN_BUFFER {
        return Err(stopped(Refusal::OutputTooShort, rank, links));
    }
    let floor = Floor::new(tables).map_err(|refusal| stopped(refusal, rank, links))?;
    loop {
        let stepped =
            step(&floor, rank, buffer).map_err(|refusal| stopped(refusal, rank, links))?;
        let Answer::Forward(next) = stepped.answer else {
            return Ok(Walked {
                stepped,
                rank,
                links,
            });
        };
        rank = next as u32;
        links += 1;
    }
}
