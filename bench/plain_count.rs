// Reads a .pb file as plain_keeper.rs does, and counts it with Add1 by the program's own algorithm: prices in steps, a
// queue of stale prices in each run, raises one after another. `plain_count FILE [plain|add1] [votes|cost] [step H]` prints the
// report.
use std::collections::{BTreeSet, HashMap, HashSet};

const MOST_RAISES: u64 = 1_000_000;

pub struct City {
    pub budget: u64,
    pub ids: Vec<String>,
    pub costs: Vec<u64>,
    pub supporters: Vec<Vec<u32>>,
    pub voters: usize,
}

#[derive(Clone, PartialEq, Eq, Debug)]
pub struct Outcome {
    pub share: u64,
    pub raised: u64,
    pub elected: Vec<(usize, u64)>,
    pub collected: u128,
    pub spent: u128,
}

// The least price over weight first, then the earlier place, by cross products.
#[derive(Clone, Copy, PartialEq, Eq)]
pub struct Key {
    pub price: u64,
    pub weight: u64,
    pub place: usize,
}

impl Ord for Key {
    fn cmp(&self, other: &Key) -> std::cmp::Ordering {
        let own = u128::from(self.price) * u128::from(other.weight);
        let others = u128::from(other.price) * u128::from(self.weight);
        own.cmp(&others).then(self.place.cmp(&other.place))
    }
}

impl PartialOrd for Key {
    fn partial_cmp(&self, other: &Key) -> Option<std::cmp::Ordering> {
        Some(self.cmp(other))
    }
}

fn money(text: &str) -> u64 {
    let (whole, fraction) = text.split_once(['.', ',']).unwrap_or((text, ""));
    let hundredths = format!("{fraction:0<2}");
    whole.parse::<u64>().expect("a number") * 100 + hundredths.parse::<u64>().expect("a number")
}

pub fn read(text: &str) -> City {
    let (mut section, mut is_header) = ("", false);
    let mut city = City { budget: 0, ids: Vec::new(), costs: Vec::new(), supporters: Vec::new(), voters: 0 };
    let mut places: HashMap<String, u32> = HashMap::new();
    let mut voters: HashSet<String> = HashSet::new();
    for line in text.lines() {
        if matches!(line, "META" | "PROJECTS" | "VOTES") {
            (section, is_header) = (line, true);
            continue;
        }
        if is_header {
            is_header = false;
            continue;
        }
        let mut fields = line.split(';').map(str::trim);
        let first = fields.next().expect("a field");
        match section {
            "META" if first == "budget" => city.budget = money(fields.next().expect("a budget")),
            "PROJECTS" => {
                assert!(places.insert(first.to_string(), city.ids.len() as u32).is_none());
                city.ids.push(first.to_string());
                city.costs.push(money(fields.next().expect("a cost")));
                city.supporters.push(Vec::new());
            }
            "VOTES" => {
                assert!(voters.insert(first.to_string()));
                let vote = fields.last().expect("a vote");
                for piece in vote.split(',').map(str::trim).filter(|piece| !piece.is_empty()) {
                    let place = places[piece] as usize;
                    city.supporters[place].push(city.voters as u32);
                }
                city.voters += 1;
            }
            _ => {}
        }
    }
    city
}

fn price(city: &City, rests: &[u64], place: usize) -> Option<u64> {
    let (list, cost) = (&city.supporters[place], city.costs[place]);
    if list.is_empty() {
        return None;
    }
    let mut payment = cost.div_ceil(list.len() as u64);
    loop {
        let (mut paid, mut above) = (0u128, 0u64);
        for voter in list {
            let rest = rests[*voter as usize];
            paid += u128::from(rest.min(payment));
            above += u64::from(rest > payment);
        }
        if paid >= u128::from(cost) {
            return Some(payment);
        }
        if above == 0 {
            return None;
        }
        payment += (cost - paid as u64).div_ceil(above);
    }
}

pub fn run(city: &City, share: u64, raised: u64, by_cost: bool, stop_over: bool) -> Outcome {
    let mut rests = vec![share; city.voters];
    let key = |price, place: usize| Key { price, weight: if by_cost { city.costs[place] } else { 1 }, place };
    let mut queue: BTreeSet<Key> =
        (0..city.ids.len()).filter_map(|place| price(city, &rests, place).map(|price| key(price, place))).collect();
    let mut outcome = Outcome { share, raised, elected: Vec::new(), collected: 0, spent: 0 };
    loop {
        let mut best: Option<Key> = None;
        let mut fresh: Vec<Key> = Vec::new();
        while let Some(head) = queue.first().copied() {
            if best.is_some_and(|best| best < head) {
                break;
            }
            queue.pop_first();
            if let Some(price) = price(city, &rests, head.place) {
                let now = key(price, head.place);
                fresh.push(now);
                best = Some(best.map_or(now, |best| best.min(now)));
            }
        }
        let Some(best) = best else { return outcome };
        queue.extend(fresh.into_iter().filter(|key| *key != best));
        for voter in &city.supporters[best.place] {
            let rest = &mut rests[*voter as usize];
            let payment = (*rest).min(best.price);
            *rest -= payment;
            outcome.collected += u128::from(payment);
        }
        outcome.spent += u128::from(city.costs[best.place]);
        outcome.elected.push((best.place, best.price));
        if stop_over && outcome.spent > u128::from(city.budget) {
            return outcome;
        }
    }
}

fn is_over(city: &City, outcome: &Outcome) -> bool {
    outcome.spent > u128::from(city.budget)
}

fn is_exhausted(city: &City, outcome: &Outcome) -> bool {
    let elected: HashSet<usize> = outcome.elected.iter().map(|(place, _)| *place).collect();
    let left = u128::from(city.budget) - outcome.spent;
    let could_join = |place: &usize| {
        !elected.contains(place) && !city.supporters[*place].is_empty() && u128::from(city.costs[*place]) <= left
    };
    !(0..city.ids.len()).any(|place| could_join(&place))
}

pub fn count(city: &City, step: u64, add1: bool, by_cost: bool) -> Outcome {
    let opening = city.budget.checked_div(city.voters as u64).unwrap_or(0);
    let mut last = run(city, opening, 0, by_cost, false);
    if !add1 || is_exhausted(city, &last) {
        return last;
    }
    for raised in 1..=MOST_RAISES {
        let outcome = run(city, opening + raised * step, raised, by_cost, true);
        if is_over(city, &outcome) {
            return last;
        }
        if is_exhausted(city, &outcome) {
            return outcome;
        }
        last = outcome;
    }
    panic!("no raise decides")
}

fn text(hundredths: u128) -> String {
    format!("{}.{:02}", hundredths / 100, hundredths % 100)
}

fn main() {
    let words: Vec<String> = std::env::args().skip(1).collect();
    let bytes = std::fs::read(&words[0]).expect("a readable file");
    let city = read(std::str::from_utf8(&bytes).expect("text"));
    let has = |word: &str| words.iter().any(|other| other == word);
    if has("read") {
        println!("{} projects, {} voters", city.ids.len(), city.voters);
        return;
    }
    let outcome = count(&city, step(&words), !has("plain"), has("cost"));
    print(&city, &outcome);
}

// The word after "step", or 100.
pub fn step(words: &[String]) -> u64 {
    let at = words.iter().position(|word| word == "step");
    at.map_or(100, |at| words[at + 1].parse().expect("a number"))
}

pub fn print(city: &City, outcome: &Outcome) {
    println!("budget;{}\nvoters;{}", text(city.budget.into()), city.voters);
    println!("share;{}\nraises;{}", text(outcome.share.into()), outcome.raised);
    for (place, price) in &outcome.elected {
        println!("elected;{};{};{}", city.ids[*place], text(city.costs[*place].into()), text((*price).into()));
    }
    println!("spent;{}\nsurplus;{}", text(outcome.spent), text(outcome.collected - outcome.spent));
}
