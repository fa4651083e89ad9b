// The finders of a card in plain Rust, by the same methods: what the proved ones are timed against.
// Columns are computed once, when the finder is made, a word is checked once, and no index is checked in the inner loops.
// A tuned finder also has two measures of the proved ones: small strides as constants, and choices of the group rows weighed before they are named.

pub struct Card {
    pub name: &'static str,
    pub places: usize,
    pub group: &'static [u64],
    pub transform: &'static [u64],
    pub coset: &'static [u64],
}

impl Card {
    pub fn rows(&self) -> Vec<u64> {
        [self.group, self.transform, self.coset].concat()
    }

    // The bytes of the card's file.
    pub fn file(&self) -> Vec<u8> {
        let mut bytes = vec![self.places as u8];
        for section in [self.group, self.transform, self.coset] {
            bytes.push(section.len() as u8);
            section.iter().for_each(|row| bytes.extend(row.to_le_bytes()));
        }
        bytes
    }
}

#[repr(C)]
#[derive(Clone, Copy, PartialEq, Eq, Debug, Default)]
pub struct Answer {
    pub refusal: u32,
    pub message: u32,
    pub agreement: i32,
}

#[derive(Clone, Copy, PartialEq, Eq, Debug)]
pub enum Method {
    Plain,
    Group,
}

pub struct Twin {
    method: Method,
    tuned: bool,
    places: usize,
    group: usize,
    below: usize,
    coset: Vec<u64>,
    // the length of each transformed list, and how many there are
    span: usize,
    lists: usize,
    slots: [usize; 64],
}

// The number whose digit j is the digit of row j at a place.
fn column(rows: &[u64], place: usize) -> usize {
    rows.iter().enumerate().map(|(j, row)| ((row >> place & 1) as usize) << j).sum()
}

// The list of a place by its column of the group rows: none of them, one alone, or all.
fn list_of(column: usize, group: usize) -> usize {
    if column == 0 {
        0
    } else if column.is_power_of_two() {
        column.trailing_zeros() as usize + 1
    } else {
        group + 1
    }
}

fn transform(list: &mut [i32]) {
    let mut half = list.len() / 2;
    while half > 0 {
        for block in list.chunks_exact_mut(2 * half) {
            let (low, high) = block.split_at_mut(half);
            for (x, y) in low.iter_mut().zip(high.iter_mut()) {
                let (a, b) = (*x, *y);
                *x = a + b;
                *y = a - b;
            }
        }
        half /= 2;
    }
}

// The butterflies of one stride.
#[inline(always)]
fn stage(list: &mut [i32], half: usize) {
    for base in (0..list.len()).step_by(2 * half) {
        for k in base..base + half {
            // both indices are below the length, a multiple of 2 * half
            unsafe {
                let (a, b) = (*list.get_unchecked(k), *list.get_unchecked(half + k));
                *list.get_unchecked_mut(k) = a + b;
                *list.get_unchecked_mut(half + k) = a - b;
            }
        }
    }
}

fn tuned_transform(list: &mut [i32]) {
    let mut half = list.len() / 2;
    while half > 0 {
        match half {
            1 => stage(list, 1),
            2 => stage(list, 2),
            4 => stage(list, 4),
            _ => stage(list, half),
        }
        half /= 2;
    }
}

fn negate_at(word: &mut [i32], mask: u64) {
    for (i, x) in word.iter_mut().enumerate() {
        if mask >> i & 1 == 1 {
            *x = -*x;
        }
    }
}

// A message and its agreement.
type Found = (u32, i32);

fn heavier(a: Found, b: Found) -> Found {
    if b.1 > a.1 {
        b
    } else {
        a
    }
}

fn first_largest(list: &[i32]) -> Found {
    let mut best = (0, list[0]);
    for (i, &x) in list.iter().enumerate().skip(1) {
        best = heavier(best, (i as u32, x));
    }
    best
}

// The best choice of the group rows for the choice t of the others. `at` gives entry t of each transformed list.
fn best_choice(at: impl Fn(usize) -> i32, group: usize) -> Found {
    if group == 0 {
        return (0, at(0) + at(1));
    }
    let (mut even, mut odd) = ((0, at(1)), (1, -at(1)));
    for j in 1..group {
        let (s, bit) = (at(j + 1), 1u32 << j);
        let next = heavier((even.0, even.1 + s), (odd.0 + bit, odd.1 - s));
        odd = heavier((odd.0, odd.1 + s), (even.0 + bit, even.1 - s));
        even = next;
    }
    let all = at(group + 1);
    let (even, odd) = ((even.0, even.1 + all), (odd.0, odd.1 - all));
    let best = if even.1 == odd.1 && odd.0 < even.0 { odd } else { heavier(even, odd) };
    (best.0, at(0) + best.1)
}

// Its agreement alone.
fn best_weight(at: impl Fn(usize) -> i32, group: usize) -> i32 {
    if group == 0 {
        return at(0) + at(1);
    }
    let (mut even, mut odd) = (at(1), -at(1));
    for j in 1..group {
        let s = at(j + 1);
        (even, odd) = ((even + s).max(odd - s), (odd + s).max(even - s));
    }
    let all = at(group + 1);
    at(0) + (even + all).max(odd - all)
}

// The best message by the transformed lists: no group digit, each group row alone, all of them.
fn over_choices(lists: &[i32], span: usize, group: usize, tuned: bool) -> Found {
    assert!(lists.len() == (group + 2) * span);
    let mut best = (0, i32::MIN);
    for t in 0..span {
        let at = |q: usize| unsafe { *lists.get_unchecked(q * span + t) };
        if tuned && best_weight(at, group) <= best.1 {
            continue;
        }
        let found = best_choice(at, group);
        best = heavier(best, (found.0 + ((t as u32) << group), found.1));
    }
    best
}

impl Twin {
    pub fn new(card: &Card, method: Method, tuned: bool) -> Twin {
        let rows = [card.group, card.transform].concat();
        let span = match method {
            Method::Plain => 1 << rows.len(),
            Method::Group => 1 << card.transform.len(),
        };
        let mut slots = [0; 64];
        for i in 0..card.places {
            slots[i] = match method {
                Method::Plain => column(&rows, i),
                Method::Group => list_of(column(card.group, i), card.group.len()) * span + column(card.transform, i),
            };
        }
        let lists = match method {
            Method::Plain => 1,
            Method::Group => card.group.len() + 2,
        };
        Twin { method, tuned, places: card.places, group: card.group.len(), below: rows.len(), coset: card.coset.to_vec(), span, lists, slots }
    }

    pub fn need(&self) -> usize {
        self.lists * self.span
    }

    // The number of the refusal of a search, or 0.
    fn refusal(&self, word: &[i32], work: &[i32]) -> u32 {
        if word.len() != self.places {
            13
        } else if word.iter().any(|x| x.unsigned_abs() > 1 << 20) {
            14
        } else if work.len() < self.need() {
            15
        } else {
            0
        }
    }

    // The best message of the rows below the coset rows.
    fn search_below(&self, word: &[i32], list: &mut [i32]) -> Found {
        list.fill(0);
        for (x, slot) in word.iter().zip(&self.slots) {
            // every slot is below the need
            unsafe { *list.get_unchecked_mut(*slot) += x };
        }
        for part in list.chunks_exact_mut(self.span) {
            if self.tuned {
                tuned_transform(part);
            } else {
                transform(part);
            }
        }
        match self.method {
            Method::Plain => first_largest(list),
            Method::Group => over_choices(list, self.span, self.group, self.tuned),
        }
    }

    pub fn search(&self, word: &mut [i32], work: &mut [i32]) -> Answer {
        let refusal = self.refusal(word, work);
        if refusal != 0 {
            return Answer { refusal, message: 0, agreement: 0 };
        }
        let list = &mut work[..self.need()];
        let mut best = self.search_below(word, list);
        for choice in 1..1u32 << self.coset.len() {
            let chosen = self.coset.iter().enumerate().filter(|(j, _)| choice >> j & 1 == 1);
            let mask = chosen.fold(0, |mask, (_, row)| mask ^ row);
            negate_at(word, mask);
            let found = self.search_below(word, list);
            negate_at(word, mask);
            best = heavier(best, (found.0 + (choice << self.below), found.1));
        }
        Answer { refusal: 0, message: best.0, agreement: best.1 }
    }

    // Searches words that lie one after the other.
    #[inline(never)]
    pub fn search_all(&self, words: &mut [i32], work: &mut [i32], answers: &mut [Answer]) {
        for (word, answer) in words.chunks_exact_mut(self.places).zip(answers) {
            *answer = self.search(word, work);
        }
    }
}
