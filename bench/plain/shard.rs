//! One shard: its journal as text, and a state for each key and window.
//!
//! Time windows are kept the classic way: one bucket for each window instance, and every tuple
//! goes into each instance that covers it. Timers in a heap say which instances a watermark
//! completes.

use crate::defs::{Def, Defs, Func, Kind};
use crate::fold::{Bucket, Tup, put_fold};
use crate::records::Entry;
use crate::text::{FINAL, put_end, put_i64, put_key, put_u64};
use std::cmp::Reverse;
use std::collections::{BTreeMap, BTreeSet, BinaryHeap, HashMap};
use std::hash::{BuildHasherDefault, Hasher};

/// A quick hash for short keys.
#[derive(Default)]
pub struct KeyHasher {
    state: u64,
}

impl Hasher for KeyHasher {
    fn write(&mut self, bytes: &[u8]) {
        for chunk in bytes.chunks(8) {
            let mut word = [0u8; 8];
            word[..chunk.len()].copy_from_slice(chunk);
            self.mix(u64::from_le_bytes(word));
        }
    }

    fn write_usize(&mut self, number: usize) {
        self.mix(number as u64);
    }

    fn finish(&self) -> u64 {
        self.state
    }
}

impl KeyHasher {
    fn mix(&mut self, word: u64) {
        self.state = (self.state.rotate_left(5) ^ word).wrapping_mul(0x517c_c1b7_2722_0a95);
    }
}

struct Session {
    last: u64,
    bucket: Bucket,
}

/// What one window keeps for one key.
enum Part {
    Time { length: u64, slide: u64, buckets: BTreeMap<u64, Bucket> },
    Session { gap: u64, sessions: BTreeMap<u64, Session> },
    Marks { marks: BTreeSet<u64>, panes: BTreeMap<u64, Vec<Tup>> },
    /// `base` blocks of `count` tuples have left `items`; the first `standing` blocks stand.
    Events { count: u64, base: u64, standing: u64, items: Vec<Tup> },
}

impl Part {
    fn new(kind: Kind) -> Part {
        match kind {
            Kind::Tumbling { length } => Part::Time { length, slide: length, buckets: BTreeMap::new() },
            Kind::Sliding { length, slide } => Part::Time { length, slide, buckets: BTreeMap::new() },
            Kind::Session { gap } => Part::Session { gap, sessions: BTreeMap::new() },
            Kind::Marks => Part::Marks { marks: BTreeSet::from([0]), panes: BTreeMap::new() },
            Kind::Events { count } => Part::Events { count, base: 0, standing: 0, items: Vec::new() },
        }
    }
}

/// A moment at which an instance may complete: time, key, window, start.
type Timer = Reverse<(u64, u32, u32, u64)>;

/// The lines of one entry: those that take back, and those that show a value.
#[derive(Default)]
struct Lines {
    gone: Vec<u8>,
    shown: Vec<u8>,
}

/// What a change needs to know of its place.
#[derive(Clone, Copy)]
struct Place<'a> {
    window: u32,
    func: Func,
    key: &'a [u8],
    id: u32,
    water: u64,
}

fn head(out: &mut Vec<u8>, sign: u8, window: u32, start: u64, end: u64) {
    out.push(sign);
    out.push(b' ');
    put_u64(out, u64::from(window));
    out.push(b' ');
    put_u64(out, start);
    out.push(b' ');
    put_end(out, end);
    out.push(b' ');
}

fn tail(out: &mut Vec<u8>, key: &[u8]) {
    put_key(out, key);
    out.push(b'\n');
}

impl Lines {
    fn gone(&mut self, place: Place, start: u64, end: u64) {
        head(&mut self.gone, b'-', place.window, start, end);
        tail(&mut self.gone, place.key);
    }

    fn bucket(&mut self, sign: u8, place: Place, start: u64, end: u64, bucket: &mut Bucket) {
        let out = &mut self.shown;
        head(out, sign, place.window, start, end);
        put_u64(out, bucket.number);
        out.push(b' ');
        bucket.put(out);
        out.push(b' ');
        tail(out, place.key);
    }

    fn items(&mut self, sign: u8, place: Place, start: u64, end: u64, items: &[Tup]) {
        let out = &mut self.shown;
        head(out, sign, place.window, start, end);
        put_u64(out, items.len() as u64);
        out.push(b' ');
        put_fold(place.func, items, out);
        out.push(b' ');
        tail(out, place.key);
    }
}

pub struct Shard {
    windows: Vec<Def>,
    lateness: u64,
    water: u64,
    position: u64,
    ids: HashMap<Box<[u8]>, u32, BuildHasherDefault<KeyHasher>>,
    names: Vec<Box<[u8]>>,
    states: Vec<Vec<Part>>,
    timers: BinaryHeap<Timer>,
    due: Vec<(u32, u32, u64)>,
    lines: Lines,
    pub report: Vec<u8>,
}

impl Shard {
    pub fn new(defs: &Defs) -> Shard {
        Shard {
            windows: defs.windows.clone(),
            lateness: defs.lateness,
            water: 0,
            position: 0,
            ids: HashMap::default(),
            names: Vec::new(),
            states: Vec::new(),
            timers: BinaryHeap::new(),
            due: Vec::new(),
            lines: Lines::default(),
            report: Vec::new(),
        }
    }

    /// Journals one entry and writes its changes.
    pub fn apply(&mut self, entry: Entry) {
        put_journal(&mut self.report, entry);
        match entry {
            Entry::Tuple { key, time, value } => {
                if time + self.lateness < self.water {
                    self.report.extend_from_slice(b"x\n");
                } else {
                    self.put(key, (time, self.position, value));
                }
            }
            Entry::Mark { key, time } => {
                if time + self.lateness < self.water {
                    self.report.extend_from_slice(b"x\n");
                } else {
                    self.mark(key, time);
                }
            }
            Entry::Water { time } => self.raise(time),
            Entry::End => self.raise(FINAL),
        }
        self.position += 1;
    }

    fn id(&mut self, key: &[u8]) -> u32 {
        if let Some(&id) = self.ids.get(key) {
            return id;
        }
        let id = self.names.len() as u32;
        self.ids.insert(key.into(), id);
        self.names.push(key.into());
        self.states.push(self.windows.iter().map(|def| Part::new(def.kind)).collect());
        id
    }

    fn put(&mut self, key: &[u8], tup: Tup) {
        let id = self.id(key);
        for (window, part) in self.states[id as usize].iter_mut().enumerate() {
            let place = Place {
                window: window as u32,
                func: self.windows[window].func,
                key,
                id,
                water: self.water,
            };
            let (lines, timers) = (&mut self.lines, &mut self.timers);
            match part {
                Part::Time { length, slide, buckets } => put_time(*length, *slide, buckets, place, tup, lines, timers),
                Part::Session { gap, sessions } => put_session(*gap, sessions, place, tup, lines, timers),
                Part::Marks { marks, panes } => put_pane(marks, panes, place, tup, lines, timers),
                Part::Events { count, base, standing, items } => {
                    put_event(*count, *base, standing, items, place, tup, lines, timers)
                }
            }
        }
        self.close_lines();
    }

    fn mark(&mut self, key: &[u8], time: u64) {
        let id = self.id(key);
        for (window, part) in self.states[id as usize].iter_mut().enumerate() {
            if let Part::Marks { marks, panes } = part {
                let func = self.windows[window].func;
                let place = Place { window: window as u32, func, key, id, water: self.water };
                split_pane(marks, panes, place, time, &mut self.lines, &mut self.timers);
            }
        }
        self.close_lines();
    }

    fn close_lines(&mut self) {
        self.report.append(&mut self.lines.gone);
        self.report.append(&mut self.lines.shown);
    }

    fn raise(&mut self, new: u64) {
        let old = self.water;
        if new <= old {
            return;
        }
        self.water = new;
        let mut due = std::mem::take(&mut self.due);
        while let Some(&Reverse((time, id, window, start))) = self.timers.peek() {
            if time > new {
                break;
            }
            self.timers.pop();
            due.push((id, window, start));
        }
        let names = &self.names;
        due.sort_unstable_by(|a, b| {
            let keys = if a.0 == b.0 {
                std::cmp::Ordering::Equal
            } else {
                names[a.0 as usize].cmp(&names[b.0 as usize])
            };
            keys.then((a.1, a.2).cmp(&(b.1, b.2)))
        });
        due.dedup();
        for &(id, window, start) in &due {
            self.fire(id, window, start, old);
        }
        self.close_lines();
        due.dedup_by_key(|timer| (timer.0, timer.1));
        for &(id, window, _) in &due {
            self.settle(id, window);
        }
        due.clear();
        self.due = due;
    }

    /// Shows the instance of this start where the move of the watermark completes it.
    fn fire(&mut self, id: u32, window: u32, start: u64, old: u64) {
        let water = self.water;
        let key = &self.names[id as usize];
        let func = self.windows[window as usize].func;
        let place = Place { window, func, key, id, water };
        let lines = &mut self.lines;
        match &mut self.states[id as usize][window as usize] {
            Part::Time { length, buckets, .. } => {
                let end = start + *length;
                if let Some(bucket) = buckets.get_mut(&start) {
                    if end > old {
                        lines.bucket(b'+', place, start, end, bucket);
                    }
                }
            }
            Part::Session { gap, sessions } => {
                if let Some(session) = sessions.get_mut(&start) {
                    let end = session.last + *gap;
                    if end > water {
                        self.timers.push(Reverse((end, id, window, start)));
                    } else if end > old {
                        lines.bucket(b'+', place, start, end, &mut session.bucket);
                    }
                }
            }
            Part::Marks { marks, panes } => {
                if let Some(items) = panes.get(&start) {
                    let end = end_of(marks, start);
                    if end > old && end <= water {
                        lines.items(b'+', place, start, end, items);
                    }
                }
            }
            Part::Events { count, base, standing, items } => {
                show_blocks(*count, *base, standing, items, place, lines);
                push_block(*count, *base, *standing, items, place, &mut self.timers);
            }
        }
    }

    /// Lets go of what no tuple or mark can touch any more.
    fn settle(&mut self, id: u32, window: u32) {
        let settled = |end: u64| end + self.lateness <= self.water;
        match &mut self.states[id as usize][window as usize] {
            Part::Time { length, buckets, .. } => {
                while let Some(first) = buckets.first_entry().filter(|first| settled(*first.key() + *length)) {
                    first.remove();
                }
            }
            Part::Session { gap, sessions } => {
                while let Some(first) = sessions.first_entry().filter(|first| settled(first.get().last + *gap)) {
                    first.remove();
                }
            }
            Part::Marks { marks, panes } => {
                while let Some(first) = panes.first_entry() {
                    let end = end_of(marks, *first.key());
                    if !settled(end) {
                        break;
                    }
                    first.remove();
                    *marks = marks.split_off(&end);
                }
            }
            Part::Events { count, base, standing, items } => {
                let size = *count as usize;
                let held = (*standing - *base) as usize;
                let free = (0..held).take_while(|i| settled(items[(i + 1) * size - 1].0)).count();
                if free * size * 2 > items.len() {
                    items.drain(..free * size);
                    *base += free as u64;
                }
            }
        }
    }
}

/// Writes the journal line of an entry.
fn put_journal(out: &mut Vec<u8>, entry: Entry) {
    out.extend_from_slice(b"j 0");
    match entry {
        Entry::Tuple { key, time, value } => {
            out.extend_from_slice(b" t ");
            put_u64(out, time);
            out.push(b' ');
            put_i64(out, value);
            out.push(b' ');
            tail(out, key);
        }
        Entry::Mark { key, time } => {
            out.extend_from_slice(b" m ");
            put_u64(out, time);
            out.push(b' ');
            tail(out, key);
        }
        Entry::Water { time } => {
            out.extend_from_slice(b" w ");
            put_u64(out, time);
            out.push(b'\n');
        }
        Entry::End => out.extend_from_slice(b" e\n"),
    }
}

fn put_time(
    length: u64,
    slide: u64,
    buckets: &mut BTreeMap<u64, Bucket>,
    place: Place,
    tup: Tup,
    lines: &mut Lines,
    timers: &mut BinaryHeap<Timer>,
) {
    let time = tup.0;
    let last = time / slide * slide;
    let first = if time < length { 0 } else { ((time - length) / slide + 1) * slide };
    let timer = |start: u64| Reverse((start + length, place.id, place.window, start));
    if first + length > place.water {
        // No covering instance is complete: fill those that are there, then make the others.
        let mut missing = 0u64;
        let mut next = first;
        let mut gaps: Vec<u64> = Vec::new();
        for (&start, bucket) in buckets.range_mut(first..=last) {
            while next < start {
                gaps.push(next);
                next += slide;
            }
            bucket.add(tup);
            next = start + slide;
        }
        if next <= last {
            missing = (last - next) / slide + 1;
        }
        let rest = (0..missing).map(|i| next + i * slide);
        for start in gaps.into_iter().chain(rest) {
            buckets.insert(start, Bucket::of(place.func, tup));
            timers.push(timer(start));
        }
        return;
    }
    // Late: the instances in turn, the complete ones shown at once.
    let mut start = first;
    while start <= last {
        let end = start + length;
        let mut sign = b'~';
        let bucket = buckets
            .entry(start)
            .and_modify(|bucket| bucket.add(tup))
            .or_insert_with(|| {
                sign = b'+';
                Bucket::of(place.func, tup)
            });
        if end <= place.water {
            lines.bucket(sign, place, start, end, bucket);
        } else if sign == b'+' {
            timers.push(timer(start));
        }
        start += slide;
    }
}

fn put_session(
    gap: u64,
    sessions: &mut BTreeMap<u64, Session>,
    place: Place,
    tup: Tup,
    lines: &mut Lines,
    timers: &mut BinaryHeap<Timer>,
) {
    let time = tup.0;
    let water = place.water;
    let after = match sessions.range(time + 1..).next() {
        Some((&start, _)) if start - time < gap => Some(start),
        _ => None,
    };
    let before = match sessions.range(..=time).next_back() {
        Some((&start, session)) if time < session.last + gap => Some(start),
        _ => None,
    };
    let joined = after.and_then(|start| sessions.remove(&start).map(|session| (start, session)));
    match (before, joined) {
        (Some(start), joined) => {
            let Some(session) = sessions.get_mut(&start) else { return };
            let old_end = session.last + gap;
            let stood = old_end <= water;
            session.last = time.max(session.last);
            session.bucket.add(tup);
            let mut taken = None;
            if let Some((from, other)) = joined {
                taken = Some((from, other.last + gap));
                session.last = other.last;
                session.bucket.merge(other.bucket);
            }
            let end = session.last + gap;
            if end == old_end {
                if stood {
                    lines.bucket(b'~', place, start, end, &mut session.bucket);
                }
                return;
            }
            if stood {
                lines.gone(place, start, old_end);
            }
            if let Some((from, to)) = taken {
                if to <= water {
                    lines.gone(place, from, to);
                }
            }
            if end <= water {
                lines.bucket(b'+', place, start, end, &mut session.bucket);
            } else if stood {
                timers.push(Reverse((end, place.id, place.window, start)));
            }
        }
        (None, joined) => {
            let mut session = Session { last: time, bucket: Bucket::of(place.func, tup) };
            if let Some((from, other)) = joined {
                let to = other.last + gap;
                if to <= water {
                    lines.gone(place, from, to);
                }
                session.last = other.last;
                session.bucket.merge(other.bucket);
            }
            let end = session.last + gap;
            if end <= water {
                lines.bucket(b'+', place, time, end, &mut session.bucket);
            } else {
                timers.push(Reverse((end, place.id, place.window, time)));
            }
            sessions.insert(time, session);
        }
    }
}

fn end_of(marks: &BTreeSet<u64>, start: u64) -> u64 {
    marks.range(start + 1..).next().copied().unwrap_or(FINAL)
}

fn start_of(marks: &BTreeSet<u64>, time: u64) -> u64 {
    marks.range(..=time).next_back().copied().unwrap_or(0)
}

fn put_pane(
    marks: &BTreeSet<u64>,
    panes: &mut BTreeMap<u64, Vec<Tup>>,
    place: Place,
    tup: Tup,
    lines: &mut Lines,
    timers: &mut BinaryHeap<Timer>,
) {
    let start = start_of(marks, tup.0);
    let end = end_of(marks, tup.0);
    let items = panes.entry(start).or_default();
    let fresh = items.is_empty();
    insert(items, tup);
    if end <= place.water {
        lines.items(if fresh { b'+' } else { b'~' }, place, start, end, items);
    } else if fresh {
        timers.push(Reverse((end, place.id, place.window, start)));
    }
}

/// Puts a tuple behind those of its time, and says where.
fn insert(items: &mut Vec<Tup>, tup: Tup) -> usize {
    match items.last() {
        Some(last) if last.0 > tup.0 => {
            let at = items.partition_point(|item| item.0 <= tup.0);
            items.insert(at, tup);
            at
        }
        _ => {
            items.push(tup);
            items.len() - 1
        }
    }
}

fn split_pane(
    marks: &mut BTreeSet<u64>,
    panes: &mut BTreeMap<u64, Vec<Tup>>,
    place: Place,
    time: u64,
    lines: &mut Lines,
    timers: &mut BinaryHeap<Timer>,
) {
    let start = start_of(marks, time);
    let end = end_of(marks, time);
    if !marks.insert(time) {
        return;
    }
    let Some(items) = panes.get_mut(&start) else { return };
    let right = items.split_off(items.partition_point(|item| item.0 < time));
    if end <= place.water {
        lines.gone(place, start, end);
    }
    if items.is_empty() {
        panes.remove(&start);
    } else if time <= place.water {
        lines.items(b'+', place, start, time, items);
    } else {
        timers.push(Reverse((time, place.id, place.window, start)));
    }
    if !right.is_empty() {
        if end <= place.water {
            lines.items(b'+', place, time, end, &right);
        } else {
            timers.push(Reverse((end, place.id, place.window, time)));
        }
        panes.insert(time, right);
    }
}

#[allow(clippy::too_many_arguments)]
fn put_event(
    count: u64,
    base: u64,
    standing: &mut u64,
    items: &mut Vec<Tup>,
    place: Place,
    tup: Tup,
    lines: &mut Lines,
    timers: &mut BinaryHeap<Timer>,
) {
    let size = count as usize;
    let at = insert(items, tup);
    let held = (*standing - base) as usize;
    for block in at / size..held {
        let start = (base + block as u64) * count;
        lines.items(b'~', place, start, start + count, &items[block * size..(block + 1) * size]);
    }
    show_blocks(count, base, standing, items, place, lines);
    let next = ((*standing - base) as usize + 1) * size;
    if at < next {
        push_block(count, base, *standing, items, place, timers);
    }
}

/// Shows the blocks behind the standing ones that are whole and not above the watermark.
fn show_blocks(count: u64, base: u64, standing: &mut u64, items: &[Tup], place: Place, lines: &mut Lines) {
    let size = count as usize;
    loop {
        let from = (*standing - base) as usize * size;
        let to = from + size;
        if to > items.len() || items[to - 1].0 > place.water {
            return;
        }
        let start = *standing * count;
        lines.items(b'+', place, start, start + count, &items[from..to]);
        *standing += 1;
    }
}

/// Sets the timer of the first block that doesn't stand, where it is whole.
fn push_block(count: u64, base: u64, standing: u64, items: &[Tup], place: Place, timers: &mut BinaryHeap<Timer>) {
    let to = ((standing - base) as usize + 1) * count as usize;
    if to <= items.len() {
        timers.push(Reverse((items[to - 1].0, place.id, place.window, 0)));
    }
}
