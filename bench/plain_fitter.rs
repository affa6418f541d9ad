//! A plain fitter to compare with: it tries the denominators in turn with the band test (greatest lower limit against least upper limit) until one fits.
//! A denominator b leaves one slope, a / b with a the sum of the first b lengths; a mark outside the band ends the test.

const MOST: usize = 512;

/// `struct ijok_line`
#[repr(C)]
pub struct Line {
    number: u64,
    a: u64,
    b: u64,
    r: u64,
}

fn refused(number: u64) -> Line {
    Line { number, a: 0, b: 0, r: 0 }
}

fn fit(code: &[u64]) -> Line {
    if code.is_empty() || code.len() > MOST || code.iter().any(|&length| length > 400) {
        return refused(6);
    }
    let mut marks = [0i64; MOST + 1];
    for (k, &length) in code.iter().enumerate() {
        marks[k + 1] = marks[k] + length as i64;
    }
    let marks = &marks[..=code.len()];
    'denominators: for b in 1..marks.len() {
        let a = marks[b];
        let b = b as i64;
        let (mut low, mut high) = (0, b - 1);
        for (k, &mark) in marks.iter().enumerate() {
            let least = b * mark - a * k as i64;
            low = low.max(least);
            high = high.min(least + b - 1);
            if low > high {
                continue 'denominators;
            }
        }
        return Line { number: 0, a: a as u64, b: b as u64, r: low as u64 };
    }
    refused(7)
}

/// # Safety
/// `code` points to `count` numbers.
#[no_mangle]
pub unsafe extern "C" fn plain_fit(code: *const u64, count: usize) -> Line {
    fit(std::slice::from_raw_parts(code, count))
}
