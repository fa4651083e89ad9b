// The proved transform beside the same loops in plain Rust, once with index checks and once without.
use std::hint::black_box;
use std::time::Instant;

extern "C" {
    fn yalknobi_transform(list: *mut i32, len: usize) -> u8;
}

fn proved(list: &mut [i32]) -> u8 {
    unsafe { yalknobi_transform(list.as_mut_ptr(), list.len()) }
}

// The number of the refusal of a list, or 0.
fn refusal(list: &[i32]) -> u8 {
    let total: u64 = list.iter().map(|x| x.unsigned_abs() as u64).sum();
    if !list.len().is_power_of_two() || list.len() > 65536 {
        18
    } else if total > 1 << 28 {
        19
    } else {
        0
    }
}

#[inline(never)]
fn checked(list: &mut [i32]) -> u8 {
    let refused = refusal(list);
    if refused != 0 {
        return refused;
    }
    let mut half = list.len() / 2;
    while half > 0 {
        for base in (0..list.len()).step_by(2 * half) {
            for k in base..base + half {
                let (a, b) = (list[k], list[k + half]);
                list[k] = a + b;
                list[k + half] = a - b;
            }
        }
        half /= 2;
    }
    0
}

#[inline(never)]
fn unchecked(list: &mut [i32]) -> u8 {
    let refused = refusal(list);
    if refused != 0 {
        return refused;
    }
    let mut half = list.len() / 2;
    while half > 0 {
        for block in list.chunks_exact_mut(2 * half) {
            let (low, high) = block.split_at_mut(half);
            for (x, y) in low.iter_mut().zip(high.iter_mut()) {
                let (a, b) = (*x, *y);
                *x = a.wrapping_add(b);
                *y = a.wrapping_sub(b);
            }
        }
        half /= 2;
    }
    0
}

// Seconds of the fastest of several rounds.
fn fastest(transform: impl Fn(&mut [i32]) -> u8, input: &[i32], expected: &[i32]) -> f64 {
    let mut best = f64::MAX;
    let mut list = input.to_vec();
    for _ in 0..400 {
        list.copy_from_slice(input);
        let start = Instant::now();
        let refused = transform(black_box(&mut list));
        let seconds = start.elapsed().as_secs_f64();
        assert_eq!(refused, 0);
        assert!(list == expected);
        best = best.min(seconds);
    }
    best
}

fn main() {
    let mut seed = 12345u32;
    let input: Vec<i32> = (0..65536)
        .map(|_| {
            seed = seed.wrapping_mul(1103515245).wrapping_add(12345);
            (seed >> 16) as i32 % 2049 - 1024
        })
        .collect();
    let mut expected = input.clone();
    assert_eq!(checked(&mut expected), 0);
    let (p, c, u) = (fastest(proved, &input, &expected), fastest(checked, &input, &expected), fastest(unchecked, &input, &expected));
    println!("transform of 65536 levels, fastest of 400 rounds");
    println!("  proved                 {:8.1} us", p * 1e6);
    println!("  plain, index checks    {:8.1} us, proved takes {:.2} of it", c * 1e6, p / c);
    println!("  plain, no index checks {:8.1} us, proved takes {:.2} of it", u * 1e6, p / u);
}
