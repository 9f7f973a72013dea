// Writes a .pb file whose ids were chosen against a hash table without a random seed, and the plain file of the same size.
//
// hostile_ids WHO LENGTH VOTERS PROJECTS HOSTILE PLAIN
//
// WHO is `voters` or `projects`: whose ids are chosen. LENGTH is `short` (ids of 8 bytes) or `long` (32 bytes).
// The hash is std's `FoldHasher` as `indexmap` uses it: the lowest bits say where a table is searched first, the highest
// eight are compared before a key is. The chosen ids have the same highest bits, and lowest ones in a sixteenth of the table.
// Each voter approves the ten projects that came last.
use std::fmt::Write as _;
use std::fs;

const STATE: u64 = 0x243f_6a88_85a3_08d3;
const MULTIPLIER: u64 = 0x9e37_79b9_7f4a_7c15;

fn fold(a: u64, b: u64) -> u64 {
    let product = u128::from(a) * u128::from(b);
    product as u64 ^ (product >> 64) as u64
}

fn table_hash(state: u64) -> u32 {
    (state ^ (state >> 32)) as u32
}

// The number by which the reader once kept a short id in its table.
fn code(id: &[u8]) -> u64 {
    id.iter().fold(0u64, |code, byte| code.wrapping_mul(256).wrapping_add(u64::from(*byte) + 1))
}

// The id number `n` of eight letters.
fn letters(mut n: u64) -> [u8; 8] {
    let mut id = *b"aaaaaaaa";
    for byte in id.iter_mut().rev() {
        *byte += (n % 26) as u8;
        n /= 26;
    }
    id
}

// Ids of eight letters whose hashes begin at nearly the same place of any table of up to `groups` groups, with one tag.
fn short_ids(count: usize, groups: u32) -> Vec<String> {
    let mut ids = Vec::new();
    for n in 0.. {
        if ids.len() == count {
            break;
        }
        let id = letters(n);
        let hash = table_hash(fold(STATE ^ code(&id), MULTIPLIER ^ 16));
        if hash >> 24 == 7 && hash & (groups - 1) < groups.div_ceil(16) {
            ids.push(String::from_utf8(id.to_vec()).expect("letters"));
        }
    }
    ids
}

// Ids of 32 bytes that all have the same hash. What their first 16 bytes make of the state is text itself; where the next
// eight bytes are that text, the state is multiplied by 0, whatever the last eight bytes are.
fn long_ids(count: usize) -> Vec<String> {
    let start = STATE.wrapping_add(32);
    let word = |bytes: &[u8]| u64::from_le_bytes(bytes.try_into().expect("eight bytes"));
    let (head, middle) = (0u64..)
        .map(|n| [letters(n), *b"abcdefgh"].concat())
        .map(|head| (fold(word(&head[..8]) ^ start, word(&head[8..]) ^ MULTIPLIER).to_le_bytes(), head))
        .find(|(middle, _)| middle.iter().all(u8::is_ascii_alphanumeric))
        .map(|(middle, head)| (head, middle))
        .expect("a state that is text");
    let first = [head, middle.to_vec()].concat();
    let id = |n: usize| [first.as_slice(), &letters(n as u64)].concat();
    (0..count).map(|n| String::from_utf8(id(n)).expect("letters")).collect()
}

// As many ids of the same lengths, one after another.
fn plain_ids(count: usize, length: usize) -> Vec<String> {
    (0..count).map(|n| format!("{:0length$}", n + 1)).collect()
}

fn file(voters: &[String], projects: &[String]) -> String {
    let mut text = String::from("META\nkey;value\nbudget;1000.00\nvote_type;approval\nPROJECTS\nproject_id;cost\n");
    for id in projects {
        writeln!(text, "{id};100.00").expect("text");
    }
    text.push_str("VOTES\nvoter_id;vote\n");
    let vote = projects[projects.len().saturating_sub(10)..].join(",");
    for id in voters {
        writeln!(text, "{id};{vote}").expect("text");
    }
    text
}

fn main() {
    let words: Vec<String> = std::env::args().collect();
    let [_, who, length, voters, projects, hostile, plain] = words.as_slice() else {
        panic!("hostile_ids WHO LENGTH VOTERS PROJECTS HOSTILE PLAIN");
    };
    let voters: usize = voters.parse().expect("a number");
    let projects: usize = projects.parse().expect("a number");
    let is_long = length == "long";
    let size = if is_long { 32 } else { 8 };
    let chosen = |count: usize| {
        // A table for this many keys has the next power of two of groups, each for nine keys.
        let groups = (count.div_ceil(9) as u32).next_power_of_two();
        if is_long { long_ids(count) } else { short_ids(count, groups) }
    };
    let plain_voters = plain_ids(voters, if who == "voters" { size } else { 8 });
    let plain_projects = plain_ids(projects, if who == "projects" { size } else { 8 });
    let text = match who.as_str() {
        "voters" => file(&chosen(voters), &plain_projects),
        _ => file(&plain_voters, &chosen(projects)),
    };
    fs::write(hostile, text).expect("a file that can be written");
    fs::write(plain, file(&plain_voters, &plain_projects)).expect("a file that can be written");
}
