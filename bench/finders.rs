// The proved finders beside plain Rust by the same methods, on four codes.
// With arguments CARD METHOD WHO COUNT it only searches COUNT words, for counting instructions.
mod twin;

use std::hint::black_box;
use std::time::Instant;
use twin::{Answer, Card, Method, Twin};

extern "C" {
    fn yalknobi_plain_need(card: *const u8, card_len: usize) -> usize;
    fn yalknobi_group_need(card: *const u8, card_len: usize) -> usize;
    fn yalknobi_plain_search(card: *const u8, card_len: usize, words: *mut i32, words_len: usize, work: *mut i32, work_len: usize, answers: *mut Answer, answers_len: usize) -> u8;
    fn yalknobi_group_search(card: *const u8, card_len: usize, words: *mut i32, words_len: usize, work: *mut i32, work_len: usize, answers: *mut Answer, answers_len: usize) -> u8;
}

// The Golay code by five words of weight 7 with three places in common, and seven others; the same with two of these in a layer.
// The BCH code by three disjoint words of weight 5. The Reed-Muller code by the seven 3-flats through one 2-flat.
const GOLAY: [u64; 12] = [99367, 155783, 786519, 2101775, 5245191, 2787, 5574, 11148, 22296, 44592, 356736, 1426944];
const BCH: [u64; 7] = [465, 14880, 17422, 930, 1860, 3720, 7440];
const REED_MULLER: [u64; 16] = [
    255, 3855, 61455, 983055, 15728655, 251658255, 4026531855, 2863311530, 3435973836, 2290649224, 2694881440, 2852170240, 2863267840, 3233857728,
    3422604288, 3435921408,
];
// A full card of the greatest length: eight group rows with eight places in common, and rows drawn at random.
const FULL: [u64; 24] = [
    0x3fff, 0xfc0ff, 0x3f000ff, 0xfc0000ff, 0x3f000000ff, 0xfc0000000ff, 0x3f000000000ff, 0xfc0000000000ff, 0xf2a74de452e6b438,
    0x6513270e269e0d37, 0xc5c7fd0a6a3a450, 0xd23f0824128b2f33, 0x1818e811892f902b, 0x9531985d5d9dc9f8, 0xe8e25d940ed90475, 0x36f675cc81e74ef5,
    0x1600a35a099950d8, 0x6b0d549b6f03675a, 0x3d9c172411e20b8f, 0x8d116ece1738f7d9, 0xf21ddb66cad4a26, 0x90c192cfd3ac94af, 0xf28c105d1fb17c23,
    0xa170b33839263059,
];

const fn card(name: &'static str, places: usize, rows: &'static [u64], group: usize, transform: usize) -> Card {
    let (group, rest) = rows.split_at(group);
    let (transform, coset) = rest.split_at(transform);
    Card { name, places, group, transform, coset }
}

const CARDS: [Card; 6] = [
    card("Golay (23,12)", 23, &GOLAY, 5, 7),
    card("Golay layered", 23, &GOLAY, 5, 5),
    card("BCH (15,7)", 15, &BCH, 3, 4),
    card("BCH layered", 15, &BCH, 3, 3),
    card("RM (2,5)", 32, &REED_MULLER, 7, 8),
    card("24 rows", 64, &FULL, 8, 8),
];

struct Random(u64);

impl Random {
    fn next(&mut self) -> u64 {
        self.0 ^= self.0 << 13;
        self.0 ^= self.0 >> 7;
        self.0 ^= self.0 << 17;
        self.0 >> 11
    }
}

fn proved_need(card: &Card, method: Method) -> usize {
    let file = card.file();
    match method {
        Method::Plain => unsafe { yalknobi_plain_need(file.as_ptr(), file.len()) },
        Method::Group => unsafe { yalknobi_group_need(file.as_ptr(), file.len()) },
    }
}

fn proved(file: &[u8], method: Method, words: &mut [i32], work: &mut [i32], answers: &mut [Answer]) -> u8 {
    let search = match method {
        Method::Plain => yalknobi_plain_search,
        Method::Group => yalknobi_group_search,
    };
    unsafe { search(file.as_ptr(), file.len(), words.as_mut_ptr(), words.len(), work.as_mut_ptr(), work.len(), answers.as_mut_ptr(), answers.len()) }
}

// Words of the code with noise; where `coarse`, of a few small levels, so that many messages agree equally.
fn noisy(card: &Card, random: &mut Random, count: usize, coarse: bool) -> Vec<i32> {
    let rows = card.rows();
    let mut words = Vec::new();
    for _ in 0..count {
        let message = random.next();
        let code = rows.iter().enumerate().fold(0, |word, (j, row)| if message >> j & 1 == 1 { word ^ row } else { word });
        for i in 0..card.places {
            let sign = if code >> i & 1 == 1 { -1 } else { 1 };
            words.push(if coarse { random.next() as i32 % 5 - 2 } else { sign * 512 + (random.next() % 2049) as i32 - 1024 });
        }
    }
    words
}

// Both must answer every word alike, leave the words, and agree on words that are refused.
fn compare(card: &Card, method: Method, random: &mut Random, count: usize) {
    let file = card.file();
    let mut work = vec![0; proved_need(card, method)];
    for (coarse, tuned) in [(false, false), (true, false), (false, true), (true, true)] {
        let twin = Twin::new(card, method, tuned);
        assert_eq!(work.len(), twin.need());
        let mut words = noisy(card, random, count, coarse);
        words[card.places - 1] = (1 << 20) + 1;
        let before = words.clone();
        let (mut ours, mut theirs) = (vec![Answer::default(); count], vec![Answer::default(); count]);
        assert_eq!(proved(&file, method, &mut words, &mut work, &mut ours), 0);
        assert_eq!(words, before);
        twin.search_all(&mut words, &mut work, &mut theirs);
        assert_eq!(ours, theirs);
        assert_eq!(ours[0].refusal, 14);
    }
}

// Seconds of one search, the fastest of many rounds: proved, plain Rust and tuned plain Rust, by turns.
fn fastest(card: &Card, method: Method, random: &mut Random, count: usize, rounds: usize) -> [f64; 3] {
    let (file, twins) = (card.file(), [false, true].map(|tuned| Twin::new(card, method, tuned)));
    let mut work = vec![0; twins[0].need()];
    let mut words = noisy(card, random, count, false);
    let mut answers = vec![Answer::default(); count];
    let mut best = [f64::MAX; 3];
    for _ in 0..rounds {
        for who in 0..3 {
            let start = Instant::now();
            if who == 0 {
                assert_eq!(proved(black_box(&file), method, &mut words, &mut work, &mut answers), 0);
            } else {
                black_box(&twins[who - 1]).search_all(&mut words, &mut work, &mut answers);
            }
            best[who] = best[who].min(start.elapsed().as_secs_f64() / count as f64);
            black_box(&answers);
        }
    }
    best
}

// Seconds of one proved search where each word has a call of its own, which reads the card file again.
fn one_by_one(card: &Card, method: Method, random: &mut Random, rounds: usize) -> f64 {
    let (file, need, count) = (card.file(), proved_need(card, method), 100);
    let mut work = vec![0; need];
    let mut words = noisy(card, random, count, false);
    let mut answers = vec![Answer::default(); count];
    let mut best = f64::MAX;
    for _ in 0..rounds {
        let start = Instant::now();
        for (word, answer) in words.chunks_exact_mut(card.places).zip(answers.chunks_exact_mut(1)) {
            assert_eq!(proved(black_box(&file), method, word, &mut work, answer), 0);
        }
        best = best.min(start.elapsed().as_secs_f64() / count as f64);
    }
    best
}

// Additions of the transforms: two for each butterfly.
fn additions(card: &Card, method: Method) -> usize {
    let (j, t, layers) = (card.group.len(), card.transform.len(), 1 << card.coset.len());
    match method {
        Method::Plain => layers * (j + t) << (j + t),
        Method::Group => layers * (j + 2) * t << t,
    }
}

// Searches some words once, proved or not, for a counter of instructions.
fn once(arguments: &[String]) {
    let card = CARDS.iter().find(|card| card.name == arguments[0]).unwrap();
    let method = if arguments[1] == "plain" { Method::Plain } else { Method::Group };
    let count = arguments[3].parse().unwrap();
    let mut words = noisy(card, &mut Random(12345), count, false);
    let (file, twin) = (card.file(), Twin::new(card, method, arguments[2] == "tuned"));
    let mut work = vec![0; twin.need()];
    let mut answers = vec![Answer::default(); count];
    if arguments[2] == "proved" {
        assert_eq!(proved(&file, method, &mut words, &mut work, &mut answers), 0);
    } else {
        twin.search_all(&mut words, &mut work, &mut answers);
    }
    black_box(&answers);
}

fn main() {
    let arguments: Vec<String> = std::env::args().skip(1).collect();
    if arguments.len() == 4 {
        return once(&arguments);
    }
    assert_eq!(CARDS[0].file(), include_bytes!("../examples/golay.card"));
    let mut random = Random(88172645463325252);
    println!("microseconds for a search, the fastest of many rounds; Rust: plain Rust by the same method, and tuned like the proved finders; proved to each as a ratio");
    println!("{:14} {:>8} {:>8} {:>10} {:>10} {:>7} {:>10} {:>7} {:>10}", "code", "rows", "finder", "proved", "Rust", "ratio", "tuned", "ratio", "additions");
    for card in &CARDS {
        let rows = format!("{}+{}+{}", card.group.len(), card.transform.len(), card.coset.len());
        let mut seconds = Vec::new();
        for method in [Method::Plain, Method::Group] {
            let work = additions(card, method);
            let count = (2_000_000 / work).clamp(1, 1000);
            compare(card, method, &mut random, (400_000_000 / work).clamp(2, 2000));
            let [proved, rust, tuned] = fastest(card, method, &mut random, count, (1_500_000_000 / (count * work)).clamp(5, 500));
            let name = format!("{method:?}").to_lowercase();
            println!(
                "{:14} {:>8} {:>8} {:10.2} {:10.2} {:7.2} {:10.2} {:7.2} {:10}",
                card.name, rows, name, proved * 1e6, rust * 1e6, proved / rust, tuned * 1e6, proved / tuned, work
            );
            seconds.push(proved);
        }
        println!("{:14} {:>8} plain takes {:.1} times as long as group", "", "", seconds[0] / seconds[1]);
    }
    let alone = one_by_one(&CARDS[0], Method::Group, &mut random, 200);
    println!("Golay (23,12), group finder, a call for each word: {:.2}", alone * 1e6);
}
