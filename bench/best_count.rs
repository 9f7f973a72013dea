// Counts with Add1 as fast as is known, in plain Rust: what crates/pb_rounds is measured against. A raise that is not answered
// is a trial: a queue of lower bounds, each raised by one look at the supporters; a front of projects that all can pay in full,
// kept from share to share; and jumps over raises that elect the same. `best_count FILE [votes|cost] [step H]` prints the report,
// `best_count test HOW_MANY` compares it with plain_count.rs on made elections.
#[path = "plain_count.rs"]
#[allow(dead_code)]
mod plain;

use plain::{City, Key, Outcome, print, read, run, step};
use std::collections::BTreeSet;

#[derive(Clone, Copy, PartialEq)]
enum End {
    GoesOn,
    Exhausted,
    Over,
}

// The bound, where it is the price; else a higher one; none where there is no price.
fn next_bound(list: &[u32], cost: u64, rests: &[u64], bound: u64) -> Option<u64> {
    let (mut total, mut above, mut all) = (0u64, 0u64, 0u128);
    for voter in list {
        let rest = rests[*voter as usize];
        total += rest.min(bound);
        above += u64::from(rest > bound);
        all += u128::from(rest);
    }
    if total >= cost {
        return Some(bound);
    }
    (all >= u128::from(cost)).then(|| bound + (cost - total).div_ceil(above))
}

struct Trials<'a> {
    city: &'a City,
    // the projects with supporters, each at its cost over them, rounded up, in order
    bases: Vec<Key>,
    // how many of them everybody can pay in full at the last share tried, and what each voter has paid for them
    front: usize,
    paid: Vec<u64>,
    rests: Vec<u64>,
    queue: BTreeSet<Key>,
    elected: Vec<Key>,
    last: Vec<Key>,
}

impl<'a> Trials<'a> {
    fn new(city: &'a City, by_cost: bool) -> Trials<'a> {
        let weight = |place: usize| if by_cost { city.costs[place] } else { 1 };
        let base = |place: usize| city.costs[place].div_ceil(city.supporters[place].len() as u64);
        let supported = (0..city.ids.len()).filter(|place| !city.supporters[*place].is_empty());
        let mut bases: Vec<Key> = supported.map(|place| Key { price: base(place), weight: weight(place), place }).collect();
        bases.sort();
        let (paid, rests, queue) = (vec![0; city.voters], Vec::new(), BTreeSet::new());
        Trials { city, bases, front: 0, paid, rests, queue, elected: Vec::new(), last: Vec::new() }
    }

    // Every later share elects what the front elects, so it is never given back.
    fn extend_front(&mut self, share: u64) {
        while let Some(key) = self.bases.get(self.front) {
            let list = &self.city.supporters[key.place];
            if list.iter().any(|voter| self.paid[*voter as usize] + key.price > share) {
                return;
            }
            for voter in list {
                self.paid[*voter as usize] += key.price;
            }
            self.front += 1;
        }
    }

    fn open(&mut self, share: u64) {
        self.rests.clear();
        self.rests.extend(self.paid.iter().map(|paid| share - paid));
        self.elected.clear();
        self.elected.extend(&self.bases[..self.front]);
        self.queue.clear();
        self.queue.extend(self.bases[self.front..].iter().filter(|key| key.price <= share));
    }

    // The best project, if it is not beyond the limit.
    fn best(&mut self, limit: Option<Key>) -> Option<Key> {
        while let Some(head) = self.queue.pop_first() {
            if limit.is_some_and(|limit| limit < head) {
                self.queue.insert(head);
                return None;
            }
            let (list, cost) = (&self.city.supporters[head.place], self.city.costs[head.place]);
            match next_bound(list, cost, &self.rests, head.price) {
                None => {}
                Some(bound) if bound == head.price => return Some(head),
                Some(bound) => _ = self.queue.insert(Key { price: bound, ..head }),
            }
        }
        None
    }

    fn elect(&mut self, key: Key) {
        for voter in &self.city.supporters[key.place] {
            let rest = &mut self.rests[*voter as usize];
            *rest -= (*rest).min(key.price);
        }
        self.elected.push(key);
    }

    fn spent(&self) -> u128 {
        self.elected.iter().map(|key| u128::from(self.city.costs[key.place])).sum()
    }

    fn end_at(&mut self, share: u64) -> End {
        let budget = u128::from(self.city.budget);
        self.extend_front(share);
        self.open(share);
        let mut spent = self.spent();
        while spent <= budget {
            let Some(best) = self.best(None) else { break };
            self.elect(best);
            spent += u128::from(self.city.costs[best.place]);
        }
        if spent > budget {
            return End::Over;
        }
        let mut is_elected = vec![false; self.city.ids.len()];
        self.elected.iter().for_each(|key| is_elected[key.place] = true);
        let fits = |key: &Key| !is_elected[key.place] && u128::from(self.city.costs[key.place]) <= budget - spent;
        if self.bases.iter().any(fits) { End::GoesOn } else { End::Exhausted }
    }

    // Whether every share from the last one tried up to this one elects the same. The front, which is that of the last one, is
    // elected at the same prices.
    fn keeps(&mut self, share: u64) -> bool {
        self.open(share);
        for at in self.front..self.last.len() {
            let last = self.last[at];
            let Some(best) = self.best(None) else { return false };
            if best.place != last.place || self.best(Some(last)).is_some() {
                return false;
            }
            self.elect(best);
        }
        self.best(None).is_none()
    }

    fn decide(&mut self, opening: u64, step: u64) -> u64 {
        let (mut raised, mut same, mut wait, mut distance) = (0, 0, 1, 2);
        loop {
            match self.end_at(opening + raised * step) {
                End::Over => return raised - 1,
                End::Exhausted => return raised,
                End::GoesOn => {}
            }
            let places = |keys: &[Key]| keys.iter().map(|key| key.place).collect::<Vec<_>>();
            same = if places(&self.elected) == places(&self.last) { same + 1 } else { 0 };
            std::mem::swap(&mut self.last, &mut self.elected);
            if same >= wait {
                wait = (2 * wait).min(64);
                same = 0;
                loop {
                    if self.keeps(opening + (raised + distance) * step) {
                        std::mem::swap(&mut self.last, &mut self.elected);
                        raised += distance;
                        distance *= 2;
                        wait = 1;
                    } else if distance >= 8 {
                        distance /= 4;
                    } else {
                        distance = 2;
                        break;
                    }
                }
            }
            raised += 1;
        }
    }
}

fn best_count(city: &City, step: u64, by_cost: bool) -> Outcome {
    let opening = city.budget.checked_div(city.voters as u64).unwrap_or(0);
    let raised = Trials::new(city, by_cost).decide(opening, step);
    run(city, opening + raised * step, raised, by_cost, false)
}

// A made election: few projects and voters, small costs, so that there are ties.
fn made(chance: &mut impl FnMut(u64) -> u64) -> City {
    let projects = 1 + chance(8) as usize;
    let voters = chance(20) as usize;
    let unit = [1, 10, 100, 1000][chance(4) as usize];
    let costs: Vec<u64> = (0..projects).map(|_| (1 + chance(12)) * unit + [0, 0, 1, 99][chance(4) as usize]).collect();
    let budget = costs.iter().sum::<u64>() * (20 + chance(100)) / 100;
    let part = 1 + chance(4);
    let mut supporters = vec![Vec::new(); projects];
    for voter in 0..voters as u32 {
        for list in &mut supporters {
            if chance(5) < part {
                list.push(voter);
            }
        }
    }
    City { budget, ids: vec![String::new(); projects], costs, supporters, voters }
}

fn test(how_many: u64) {
    let mut state = 88_172_645_463_325_252u64;
    let mut chance = |below: u64| {
        state ^= state << 13;
        state ^= state >> 7;
        state ^= state << 17;
        (state >> 16) % below
    };
    let (mut raises, mut raised) = (0, 0);
    for election in 0..how_many {
        let city = made(&mut chance);
        let (step, by_cost) = ([1, 3, 100][chance(3) as usize], chance(2) == 1);
        let (own, wanted) = (best_count(&city, step, by_cost), plain::count(&city, step, true, by_cost));
        assert!(own == wanted, "election {}, step {}, by cost {}: {:?}, not {:?}", election, step, by_cost, own, wanted);
        raises += wanted.raised;
        raised += u64::from(wanted.raised > 0);
    }
    println!("{how_many} elections agree; {raised} raised, {raises} raises in all");
}

fn main() {
    let words: Vec<String> = std::env::args().skip(1).collect();
    if words[0] == "test" {
        return test(words[1].parse().expect("a number"));
    }
    let bytes = std::fs::read(&words[0]).expect("a readable file");
    let city = read(std::str::from_utf8(&bytes).expect("text"));
    let by_cost = words.iter().any(|word| word == "cost");
    let outcome = best_count(&city, step(&words), by_cost);
    print(&city, &outcome);
}
