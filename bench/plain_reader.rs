// Splits the bytes of a .pb file into fields, and the last field of each line into pieces at commas, with std alone.
// It checks nothing and keeps nothing but sums: the least work that any reader of such a file does.
use std::io::Read;

fn main() {
    let path = std::env::args().nth(1).expect("a file");
    let mut bytes = Vec::new();
    std::fs::File::open(path)
        .and_then(|mut file| file.read_to_end(&mut bytes))
        .expect("a readable file");
    let (mut records, mut fields, mut pieces, mut sum) = (0u64, 0u64, 0u64, 0u64);
    for line in bytes.split(|byte| *byte == b'\n') {
        if line.is_empty() {
            continue;
        }
        records += 1;
        let mut last: &[u8] = &[];
        for field in line.split(|byte| *byte == b';') {
            fields += 1;
            last = field;
        }
        for piece in last.split(|byte| *byte == b',') {
            pieces += 1;
            sum = piece.iter().fold(sum, |sum, byte| sum.wrapping_mul(31).wrapping_add(u64::from(*byte)));
        }
    }
    println!("{records} records, {fields} fields, {pieces} pieces, {sum:x}");
}
