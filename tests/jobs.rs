// Compares the proved reader and writer of job files with a reference by lines of text: codes 1, 2, 9, 12 and 13, every
// output to its end, and the way there and back. Each single comparison is one test. The last line printed is
// `N passed, M failed`.

#[allow(dead_code)]
#[path = "support/calls.rs"]
mod calls;
#[allow(dead_code)]
#[path = "reference/schema_maker.rs"]
mod maker;
#[allow(dead_code)]
#[path = "reference/check.rs"]
mod reference;
#[path = "support/tally.rs"]
mod tally;

use maker::Rng;
use reference::calls::{self as expected, input};
use reference::job::{self, Job, MAX_FILE};
use reference::{Answer, Input};
use std::cell::Cell;
use tally::Tally;

/// Room for every file: bytes, ends, words of the schema and of the instance, and counts with two words more.
const ROOM: [usize; 5] = [16_384, 512, 1_536, 5_120, 6];

/// The answer of the reader.
fn read(file: &[u8]) -> Answer {
    calls::read_job(file, ROOM).0
}

/// The answer of the reader and each output to its end.
fn compare(tests: &mut Tally, what: &str, file: &[u8], room: [usize; 5]) {
    let (found, wanted) = (calls::read_job(file, room), expected::read_job(file, room));
    tests.same(format_args!("{what}: answer"), found.0, wanted.0);
    tests.same(format_args!("{what}: outputs"), found.1, wanted.1);
}

fn wrong_line(tests: &mut Tally, text: &str, line: u64) {
    tests.same(format_args!("{text:?}"), read(text.as_bytes()), (13, line));
    compare(tests, text, text.as_bytes(), ROOM);
}

const SMALL: &str =
    "rng=1\nstrings=2\ns=\ns=6ab0\nschema=2\nrow=1,0,-\nrow=21,0,0\ninstance=1\nnode=1,-,0,1,0\nend=1\n";

/// What stands in place of a part of the small job, and the line that is then wrong.
const WRONG: [(&str, &str, u64); 45] = [
    ("strings=2", "strings=02", 2),
    ("strings=2", "strings=+2", 2),
    ("strings=2", "strings=", 2),
    ("strings=2", "strings=-", 2),
    ("strings=2", "strings=513", 2),
    ("strings=2", "strings=4294967297", 2),
    ("strings=2", "strings=99999999999999999999999999", 2),
    ("strings=2", "strings= 2", 2),
    ("strings=2", "strings=2\r", 2),
    ("strings=2", "# two\nstrings=2", 2),
    ("strings=2", "strings=1", 4),
    ("strings=2", "strings=3", 5),
    ("s=6ab0", "s=6AB0", 4),
    ("s=6ab0", "s=6ab", 4),
    ("s=6ab0", "s=6ab0 ", 4),
    ("s=6ab0", "s=6ag0", 4),
    ("s=6ab0", "t=6ab0", 4),
    ("s=\n", "s=\n\n", 4),
    ("schema=2", "schema=1", 7),
    ("schema=2", "schema=3", 8),
    ("schema=2", "schema=513", 5),
    ("schema=2", "schema=-", 5),
    ("row=1,0,-", "row=1,0", 6),
    ("row=1,0,-", "row=1,0,0,0", 6),
    ("row=1,0,-", "row=1,0,", 6),
    ("row=1,0,-", "row=,0,0", 6),
    ("row=1,0,-", "row=1,00,0", 6),
    ("row=1,0,-", "row=1,0,4294967295", 6),
    ("row=1,0,-", "row=1,0,4294967296", 6),
    ("row=1,0,-", "row=1,0,--", 6),
    ("row=1,0,-", "row=1,0,-1", 6),
    ("row=1,0,-", "row=1, 0,-", 6),
    ("row=1,0,-", "node=1,0,-", 6),
    ("instance=1", "instance=1025", 8),
    ("instance=1", "instance=0", 9),
    ("instance=1", "instance=2", 10),
    ("node=1,-,0,1,0", "node=1,-,0,1", 9),
    ("node=1,-,0,1,0", "node=1,-,0,1,0,0", 9),
    ("node=1,-,0,1,0", "row=1,-,0,1,0", 9),
    ("end=1\n", "end=1", 10),
    ("end=1\n", "end=1\n\n", 11),
    ("end=1\n", "end=1\nend=1\n", 11),
    ("end=1\n", "end=1\nx", 11),
    ("end=1\n", "end=2\n", 10),
    ("end=1\n", "", 10),
];

/// Every reason for code 13, with its line.
fn named(tests: &mut Tally) {
    compare(tests, "small", SMALL.as_bytes(), ROOM);
    tests.same("small is read", read(SMALL.as_bytes()), (0, 0));
    for (text, line) in
        [("", 1), ("\n", 1), ("rng=1", 1), ("rng=1\n", 2), ("rng=2\n", 1), ("rng=1 \n", 1), ("RNG=1\n", 1)]
    {
        wrong_line(tests, text, line);
    }
    for (from, to, line) in WRONG {
        wrong_line(tests, &SMALL.replacen(from, to, 1), line);
    }
    for (from, to) in [("row=1,0,-", "row=4294967294,-,-"), ("node=1,-,0,1,0", "node=-,-,-,-,4294967294")] {
        let text = SMALL.replacen(from, to, 1);
        tests.same("largest words are read", read(text.as_bytes()), (0, 0));
        compare(tests, "largest words", text.as_bytes(), ROOM);
    }
    let nothing = "rng=1\nstrings=0\nschema=0\ninstance=0\nend=1\n";
    tests.same("counts of 0 are read", calls::read_job(nothing.as_bytes(), [0, 0, 0, 0, 4]).0, (0, 0));
    compare(tests, "counts of 0", nothing.as_bytes(), ROOM);
}

/// Each byte of a small job changed, deleted and doubled.
fn damaged(tests: &mut Tally) {
    let text = SMALL.as_bytes();
    for i in 0..text.len() {
        for b in *b"\n\r ,-+=0159aAgsx\0\xff" {
            let mut file = text.to_vec();
            file[i] = b;
            compare(tests, &format!("byte {i} is {b}"), &file, ROOM);
        }
        let mut file = text.to_vec();
        file.remove(i);
        compare(tests, &format!("byte {i} deleted"), &file, ROOM);
        let mut file = text.to_vec();
        file.insert(i, text[i]);
        compare(tests, &format!("byte {i} doubled"), &file, ROOM);
        compare(tests, &format!("first {i} bytes"), &text[..i], ROOM);
    }
}

/// Outputs that just fit, and that are too short by one.
fn rooms(tests: &mut Tally) {
    let exact = [2, 2, 6, 5, 4];
    tests.same("exact room", calls::read_job(SMALL.as_bytes(), exact).0, (0, 0));
    compare(tests, "exact room", SMALL.as_bytes(), exact);
    for i in 0..5 {
        let mut room = exact;
        room[i] -= 1;
        tests.same("one too short", calls::read_job(SMALL.as_bytes(), room).0, (12, 0));
        compare(tests, "one too short", SMALL.as_bytes(), room);
        compare(tests, "wrong line before a short output", &SMALL.as_bytes()[1..], room);
    }
    for counts in 0..7 {
        let answer = calls::read_job(SMALL.as_bytes(), [9, 9, 9, 9, counts]).0;
        tests.same(format_args!("{counts} words for the counts"), answer, if counts < 4 { (12, 0) } else { (0, 0) });
        compare(tests, "words for the counts", SMALL.as_bytes(), [9, 9, 9, 9, counts]);
    }
}

fn large(strings: usize, length: usize, rows: usize, nodes: usize) -> Job {
    let text = |k: usize| (0..if k == 0 { 0 } else { length }).map(|i| (k >> (8 * (i % 2))) as u8).collect();
    Job { strings: (0..strings).map(text).collect(), schema: vec![7; rows * 3], instance: vec![3; nodes * 5] }
}

/// The limits of the tables, and one beyond each.
fn limits(tests: &mut Tally) {
    for (strings, length, rows, nodes) in [(512, 32, 0, 0), (3, 8192, 0, 0), (2, 2, 512, 1024), (512, 2, 512, 1024)] {
        let job = large(strings, length, rows, nodes);
        let text = job::write(&job);
        compare(tests, "at a limit", text.as_bytes(), ROOM);
        tests.same("at a limit", read(text.as_bytes()), (0, 0));
        tests.same("written at a limit", calls::write_job(&input(&job), MAX_FILE).0, (0, text.len() as u64));
    }
    let beyond = [((3, 8193, 0, 0), 5), ((2, 1, 513, 0), 5), ((2, 1, 0, 1025), 6), ((513, 2, 0, 0), 2)];
    for ((strings, length, rows, nodes), line) in beyond {
        let text = job::write(&large(strings, length, rows, nodes));
        tests.same("beyond a limit", read(text.as_bytes()), (13, line));
        compare(tests, "beyond a limit", text.as_bytes(), ROOM);
    }
}

/// A file of 65,536 bytes and of one more: a long job, with words made longer until it has the length.
fn longest_file(tests: &mut Tally) {
    let mut job = large(512, 32, 512, 1024);
    let length = |job: &Job| job::write(job).len();
    let mut i = 0;
    while length(&job) + 9 < MAX_FILE {
        job.instance[i] = 1_000_000_000;
        i += 1;
    }
    job.schema[0] = 10u32.pow((MAX_FILE - length(&job)) as u32);
    let text = job::write(&job);
    tests.same("65,536 bytes", text.len(), MAX_FILE);
    compare(tests, "65,536 bytes", text.as_bytes(), ROOM);
    tests.same("65,536 bytes are written", calls::write_job(&input(&job), MAX_FILE + 10).0, (0, MAX_FILE as u64));
    job.schema[1] = 10;
    let text = job::write(&job);
    tests.same("65,537 bytes", read(text.as_bytes()), (13, 0));
    let written = calls::write_job(&input(&job), MAX_FILE + 10);
    tests.same("65,537 bytes are not written", written, ((12, 0), vec![0; MAX_FILE + 10]));
}

/// The refusals of the writer, with zeros throughout.
fn refused(tests: &mut Tally) {
    let (two, row, node) = ([0, 2].as_slice(), [1, 0, 0].as_slice(), [1, u32::MAX, 0, 1, 0].as_slice());
    let (long_schema, long_instance) = (vec![0; 513 * 3], vec![0; 1025 * 5]);
    for (bytes, ends, schema, instance, answer) in [
        (b"ab".as_slice(), [].as_slice(), row, node, (1, 0)),
        (b"ab", &[0, 1], row, node, (1, 1)),
        (b"abab", &[0, 2, 4], row, node, (1, 2)),
        (b"ab", &[0, 2, 1, 2], row, node, (1, 2)),
        (b"ab", &[1, 2], row, node, (1, 0)),
        (b"ab", two, &row[..2], node, (2, 0)),
        (b"ab", two, &long_schema, node, (2, 0)),
        (b"ab", two, row, &node[..4], (9, 0)),
        (b"ab", two, row, &long_instance, (9, 0)),
        (b"ab", two, &row[..2], &node[..4], (2, 0)),
        (b"ab", &[0, 1], &row[..2], &node[..4], (1, 1)),
    ] {
        let (schema, instance) = (schema.to_vec(), instance.to_vec());
        let t = Input { bytes: bytes.to_vec(), ends: ends.to_vec(), schema, instance };
        tests.same("the writer refuses", calls::write_job(&t, 400), (answer, vec![0; 400]));
    }
    let small = Job { strings: vec![vec![], b"ab".to_vec()], schema: row.to_vec(), instance: node.to_vec() };
    let text = job::write(&small).into_bytes();
    for room in 0..text.len() + 3 {
        let mut out = vec![0; room];
        let fits = out.get_mut(..text.len()).map(|front| front.copy_from_slice(&text)).is_some();
        let answer = if fits { (0, text.len() as u64) } else { (12, 0) };
        tests.same("room", calls::write_job(&input(&small), room), (answer, out));
    }
    let none = Job { schema: vec![], instance: vec![], ..small };
    let text = "rng=1\nstrings=2\ns=\ns=6162\nschema=0\ninstance=0\nend=1\n";
    let written = calls::write_job(&input(&none), text.len());
    tests.same("no rows are written", written, ((0, text.len() as u64), text.as_bytes().to_vec()));
}

fn random_job(r: &Rng) -> Job {
    let mut strings = vec![vec![]];
    for _ in 0..r.below(12) {
        let s: Vec<u8> = (0..1 + r.below(9)).map(|_| r.below(256) as u8).collect();
        if !strings.contains(&s) {
            strings.push(s);
        }
    }
    let word = |_| match r.below(6) {
        0 => u32::MAX,
        1 => u32::MAX - r.below(3) as u32,
        2 => (r.below(1 << 16) << 16 | r.below(1 << 16)) as u32,
        3 => 10u32.pow(r.below(10) as u32),
        _ => r.below(40) as u32,
    };
    let (rows, nodes) = (r.below(7), r.below(7));
    Job { strings, schema: (0..3 * rows).map(word).collect(), instance: (0..5 * nodes).map(word).collect() }
}

/// Random jobs written, read and compared, and read again after a random change.
fn random(tests: &mut Tally, r: &Rng) {
    let letters = b"\n,-=0123456789abcdefx ";
    for _ in 0..4_000 {
        let job = random_job(r);
        let text = job::write(&job).into_bytes();
        let room = text.len() + r.below(40);
        let written = calls::write_job(&input(&job), room);
        tests.same("written", written, expected::write_job(&input(&job), room));
        compare(tests, "read back", &text, ROOM);
        tests.same("the same tables", job::read(&text), Ok(job));
        let mut file = text;
        for _ in 0..1 + r.below(3) {
            let i = r.below(file.len());
            match r.below(3) {
                0 => file[i] = r.pick(letters),
                1 => drop(file.remove(i)),
                _ => file.insert(i, r.pick(letters)),
            }
        }
        compare(tests, "random change", &file, ROOM);
    }
}

fn main() {
    let mut tests = Tally::default();
    named(&mut tests);
    damaged(&mut tests);
    rooms(&mut tests);
    limits(&mut tests);
    longest_file(&mut tests);
    refused(&mut tests);
    random(&mut tests, &Rng(Cell::new(0x5EED_0F0A_11CE_1234)));
    tests.end();
}
