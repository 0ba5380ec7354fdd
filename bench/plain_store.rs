// The baseline of store.sh: tuples in one vector in event order, and slices in another with the nine functions
// of each, kept by the same rules. A tuple at the end of its slice is combined once, and one in the middle has its
// slice folded anew.
use std::env;
use std::hint::black_box;

#[derive(Clone, Copy)]
struct Kept {
    #[allow(dead_code)]
    position: u64,
    time: u64,
    value: i64,
}

#[derive(Clone, Copy)]
struct Bundle {
    count: u64,
    sum: i128,
    least: Option<i64>,
    most: Option<i64>,
    mean: (i128, u64),
    first: Option<i64>,
    last: Option<i64>,
    rises: Option<(i64, i64, u64)>,
    trace: (u64, u64),
}

fn either<A>(left: Option<A>, right: Option<A>, join: impl Fn(A, A) -> A) -> Option<A> {
    match (left, right) {
        (Some(l), Some(r)) => Some(join(l, r)),
        (Some(l), None) => Some(l),
        (None, r) => r,
    }
}

impl Bundle {
    fn unit() -> Bundle {
        Bundle { count: 0, sum: 0, least: None, most: None, mean: (0, 0), first: None, last: None, rises: None, trace: (1, 0) }
    }

    fn lift(v: i64) -> Bundle {
        Bundle {
            count: 1,
            sum: v as i128,
            least: Some(v),
            most: Some(v),
            mean: (v as i128, 1),
            first: Some(v),
            last: Some(v),
            rises: Some((v, v, 0)),
            trace: (1_099_511_628_211, v as u64),
        }
    }

    fn combine(&self, r: &Bundle) -> Bundle {
        Bundle {
            count: self.count.wrapping_add(r.count),
            sum: self.sum.wrapping_add(r.sum),
            least: either(self.least, r.least, i64::min),
            most: either(self.most, r.most, i64::max),
            mean: (self.mean.0.wrapping_add(r.mean.0), self.mean.1.wrapping_add(r.mean.1)),
            first: either(self.first, r.first, |l, _| l),
            last: either(self.last, r.last, |_, r| r),
            rises: either(self.rises, r.rises, |l, r| (l.0, r.1, l.2 + r.2 + u64::from(l.1 < r.0))),
            trace: (self.trace.0.wrapping_mul(r.trace.0), self.trace.1.wrapping_mul(r.trace.0).wrapping_add(r.trace.1)),
        }
    }
}

struct Slice {
    low: u64,
    high: u64,
    number: u64,
    partial: Bundle,
}

fn put(tuples: &mut Vec<Kept>, slices: &mut Vec<Slice>, length: u64, x: Kept) {
    let place = match tuples.last() {
        Some(last) if last.time > x.time => tuples.partition_point(|y| y.time <= x.time),
        _ => tuples.len(),
    };
    tuples.insert(place, x);
    let at = match slices.last() {
        Some(last) if last.low > x.time => slices.partition_point(|s| s.low / length <= x.time / length),
        _ => slices.len(),
    };
    if at == 0 || slices[at - 1].low / length != x.time / length {
        slices.insert(at, Slice { low: x.time, high: x.time, number: 1, partial: Bundle::lift(x.value) });
        return;
    }
    let slice = &mut slices[at - 1];
    slice.number += 1;
    if slice.high <= x.time {
        slice.high = x.time;
        slice.partial = slice.partial.combine(&Bundle::lift(x.value));
    } else if x.time < slice.low {
        slice.low = x.time;
        slice.partial = Bundle::lift(x.value).combine(&slice.partial);
    } else {
        let start = tuples.partition_point(|y| y.time < slice.low);
        let run = &tuples[start..start + slice.number as usize];
        slice.partial = run.iter().fold(Bundle::unit(), |sum, y| sum.combine(&Bundle::lift(y.value)));
    }
}

fn main() {
    let words: Vec<String> = env::args().skip(1).collect();
    let (what, count): (&str, u64) = (words[0].as_str(), words[1].parse().unwrap());
    // As the store is told it when it runs.
    let length = black_box(100);
    let (mut tuples, mut slices) = (Vec::new(), Vec::new());
    let mut seed = 1u64;
    for i in 0..count {
        seed = seed.wrapping_mul(6_364_136_223_846_793_005).wrapping_add(1_442_695_040_888_963_407);
        let back = if what == "late" && i % 10 == 0 { (seed >> 33) % 1000 } else { 0 };
        let x = Kept { position: i, time: i.saturating_sub(back), value: (seed >> 40) as i64 };
        put(&mut tuples, &mut slices, length, x);
    }
    let sum = slices.iter().fold(Bundle::unit(), |sum, s| sum.combine(&s.partial));
    black_box(&tuples);
    println!("{} slices, trace Whole({})", slices.len(), sum.trace.1);
}
