// Reads a .pb file and keeps what an election keeps, with std's hash tables: the projects' ids, the voters' ids and
// ballots. It takes the columns of the file that make_pb.py writes for granted, and checks only that ids are new and known.
use std::collections::{HashMap, HashSet};

struct Voter {
    _id: String,
    places: Vec<u32>,
}

fn main() {
    let path = std::env::args().nth(1).expect("a file");
    let bytes = std::fs::read(path).expect("a readable file");
    let text = std::str::from_utf8(&bytes).expect("text");
    let (mut section, mut is_header) = ("", false);
    let mut places: HashMap<String, u32> = HashMap::new();
    let mut ids: HashSet<String> = HashSet::new();
    let mut voters: Vec<Voter> = Vec::new();
    for line in text.lines() {
        if matches!(line, "META" | "PROJECTS" | "VOTES") {
            (section, is_header) = (line, true);
        } else if is_header {
            is_header = false;
        } else if section == "PROJECTS" {
            let id = line.split(';').next().expect("an id").trim();
            let place = places.len() as u32;
            assert!(places.insert(id.to_string(), place).is_none());
        } else if section == "VOTES" {
            let mut fields = line.split(';').map(str::trim);
            let id = fields.next().expect("an id");
            let vote = fields.nth(1).expect("a vote");
            assert!(ids.insert(id.to_string()));
            let pieces = vote.split(',').map(str::trim).filter(|piece| !piece.is_empty());
            let mut places: Vec<u32> = pieces.map(|piece| places[piece]).collect();
            places.shrink_to_fit();
            voters.push(Voter { _id: id.to_string(), places });
        }
    }
    let approvals: usize = voters.iter().map(|voter| voter.places.len()).sum();
    println!("{} projects, {} voters, {approvals} approvals", places.len(), voters.len());
}
