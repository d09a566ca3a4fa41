// A full board of 64 duties by earliest deadline first, with the waiting jobs in std's BTreeSet: the same rules and the
// same calls as crates/ticking.
//
//     ticks-rust N

use std::collections::BTreeSet;

const PLACES: usize = 64;
const SPACING: u64 = 128;
const COST: u32 = 2;
const CLOCK_LIMIT: u64 = 1_000_000_000_000;

#[derive(Clone, Copy)]
struct Place {
    deadline: u64,
    last: Option<u64>,
    job: Option<(u64, u32)>,
}

struct Board {
    clock: u64,
    places: Vec<Place>,
    ready: BTreeSet<(u64, usize)>,
}

impl Board {
    fn arrive(&mut self, p: usize) -> Result<(u64, u32), u8> {
        let clock = self.clock;
        let place = self.places.get_mut(p).ok_or(70)?;
        if let Some(last) = place.last {
            if clock < last + SPACING {
                return Err(71);
            }
        }
        if let Some((due, _)) = place.job {
            self.ready.remove(&(due, p));
        }
        let due = clock + place.deadline;
        place.last = Some(clock);
        place.job = Some((due, COST));
        self.ready.insert((due, p));
        Ok((due, COST))
    }

    fn tick(&mut self) -> Result<Option<usize>, u8> {
        if self.clock >= CLOCK_LIMIT {
            return Err(73);
        }
        self.clock += 1;
        let Some(&(due, p)) = self.ready.first() else {
            return Ok(None);
        };
        match self.places[p].job {
            Some((_, units)) if units > 1 => self.places[p].job = Some((due, units - 1)),
            _ => {
                self.places[p].job = None;
                self.ready.pop_first();
            }
        }
        Ok(Some(p))
    }
}

fn main() {
    let count: u64 = std::env::args().nth(1).and_then(|word| word.parse().ok()).expect("usage: ticks-rust N");
    let places = (0..PLACES).map(|p| Place { deadline: 65 + p as u64, last: None, job: None }).collect();
    let mut board = Board { clock: 0, places, ready: BTreeSet::new() };
    let mut sum = 0u64;
    for clock in 0..count {
        if clock % 2 == 0 {
            let _ = board.arrive((clock / 2 % 64) as usize);
        }
        if let Ok(Some(p)) = board.tick() {
            sum = sum.wrapping_mul(31).wrapping_add(p as u64);
        }
    }
    println!("{sum}");
}
