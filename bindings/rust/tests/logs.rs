//! Merging two logs, beside a few plain lines: all pairs of short logs, long random ones, and the words of the request.
mod chance;
use chance::Chance;
use texture_tracker::*;

const TEXTURES: u32 = 8;
const LAYERS: u32 = 64;

/// A log with a transition for each index, in this order. The layer is its place in the log, the new state tells whose
/// log it is.
fn recorded(indices: &[u32], whose: State) -> TransitionLog {
    let extent = Extent::new(1, LAYERS);
    let mut tracker = TextureTracker::open(TEXTURES, extent, uses::FLAGS, State(0)).unwrap();
    let mut log = TransitionLog::with_capacity(LAYERS);
    for index in (0..TEXTURES).map(TrackerIndex) {
        let texture = Texture::new(index, extent);
        tracker.set_single(texture, extent.full_range(), uses::UNINITIALIZED, &mut log).unwrap();
    }
    for (&index, layer) in indices.iter().zip((0..).map(Layer)) {
        let texture = Texture::new(TrackerIndex(index), extent);
        tracker.set_single(texture, Selector::one(Mip(0), layer), whose, &mut log).unwrap();
    }
    assert_eq!(log.len(), indices.len());
    log
}

fn first(indices: &[u32]) -> TransitionLog {
    recorded(indices, uses::COPY_DST)
}

fn second(indices: &[u32]) -> TransitionLog {
    recorded(indices, uses::RESOURCE)
}

/// What is merged, and the rest.
fn plainly(first: &TransitionLog, second: &TransitionLog) -> [Vec<PendingTransition>; 2] {
    let (mut first, mut second) = (first.iter().peekable(), second.iter().peekable());
    let mut merged = vec![];
    while let (Some(a), Some(b)) = (first.peek(), second.peek()) {
        let lower = if b.index < a.index { second.next() } else { first.next() };
        merged.extend(lower);
    }
    [merged, first.chain(second).collect()]
}

/// With room for what is merged and no more it is done, after an older transition; with less it is 15.
fn compare(one: &TransitionLog, other: &TransitionLog) {
    let older = first(&[5]);
    let [merged, left] = plainly(one, other);
    let mut out = TransitionLog::with_capacity(1 + merged.len() as u32);
    // It gets there by a merge too: of two equal ones the first's is merged, and the other is the rest.
    assert_eq!(merge_logs(&older, &second(&[5]), &mut out).unwrap().len(), 1);
    let rest = merge_logs(one, other, &mut out).unwrap();
    assert!(out.iter().eq(older.iter().chain(merged.iter().copied())));
    assert_eq!((out.len(), out.free()), (1 + merged.len(), 0));
    assert!(rest.iter().eq(left.iter().copied()));
    assert_eq!((rest.len(), rest.is_empty(), rest.numbers().len()), (left.len(), left.is_empty(), 7 * left.len()));
    if let Some(less) = merged.len().checked_sub(1) {
        let mut short = TransitionLog::with_capacity(less as u32);
        assert_eq!(merge_logs(one, other, &mut short), Err(Refusal::NoFreeEntry));
        assert_eq!((short.len(), short.free()), (0, less));
    }
}

/// Ascending lists of so many of the indices 0 to 2.
fn ascending(most: usize) -> Vec<Vec<u32>> {
    let mut lists = vec![vec![]];
    let mut from = 0;
    for _ in 0..most {
        let until = lists.len();
        for at in from..until {
            let last = lists[at].last().copied().unwrap_or(0);
            lists.extend((last..3).map(|next| [&lists[at][..], &[next]].concat()).collect::<Vec<_>>());
        }
        from = until;
    }
    lists
}

#[test]
fn all_short_logs() {
    let lists = ascending(3);
    assert_eq!(lists.len(), 1 + 3 + 6 + 10);
    let [ones, others] = [first, second].map(|log| lists.iter().map(|list| log(list)).collect::<Vec<_>>());
    for one in &ones {
        for other in &others {
            compare(one, other);
        }
    }
}

impl Chance {
    /// An ascending list of up to 64 indices.
    fn list(&mut self) -> Vec<u32> {
        let mut list: Vec<_> = (0..self.below(LAYERS + 1)).map(|_| self.below(TEXTURES)).collect();
        list.sort_unstable();
        list
    }
}

#[test]
fn long_logs() {
    let mut chance = Chance(1);
    for _ in 0..60 {
        compare(&first(&chance.list()), &second(&chance.list()));
    }
}

/// The indices of what is merged, with whose they are, and those of the rest.
fn told(one: &[u32], other: &[u32]) -> (String, Vec<u32>) {
    let (one, other) = (first(one), second(other));
    let mut out = TransitionLog::with_room_for(2, Extent::new(1, LAYERS));
    let rest = merge_logs(&one, &other, &mut out).unwrap();
    let whose = |each: PendingTransition| if each.to == uses::COPY_DST { 'a' } else { 'b' };
    let merged = out.iter().map(|each| format!("{}{}", whose(each), each.index.0)).collect::<Vec<_>>();
    (merged.join(" "), rest.into_iter().map(|each| each.index.0).collect())
}

/// All of the second and what of the first is not above it, or all of the first and what of the second is below it.
#[test]
fn the_closed_form() {
    let merged = |words: &str, rest: &[u32]| (words.to_string(), rest.to_vec());
    assert_eq!(told(&[], &[]), merged("", &[]));
    assert_eq!(told(&[3, 3], &[]), merged("", &[3, 3]));
    assert_eq!(told(&[], &[3, 3]), merged("", &[3, 3]));
    assert_eq!(told(&[0, 3, 5, 7], &[1, 4]), merged("a0 b1 a3 b4", &[5, 7]));
    assert_eq!(told(&[0, 4, 4, 7], &[1, 4]), merged("a0 b1 a4 a4 b4", &[7]));
    assert_eq!(told(&[0, 2, 5], &[1, 2, 7]), merged("a0 b1 a2 b2 a5", &[7]));
    assert_eq!(told(&[5, 5], &[5, 5]), merged("a5 a5", &[5, 5]));
    assert_eq!(told(&[4, 5], &[4, 5, 5]), merged("a4 b4 a5", &[5, 5]));
    assert_eq!(told(&[6, 7], &[1, 2]), merged("b1 b2", &[6, 7]));
}

/// What is not copied is judged as well.
#[test]
fn a_descent_in_the_rest() {
    let mut out = TransitionLog::with_capacity(8);
    let (up, down) = (first(&[0, 1]), second(&[0, 5, 4]));
    assert_eq!(merge_logs(&up, &down, &mut out), Err(Refusal::LogOutOfOrder));
    assert_eq!(merge_logs(&down, &up, &mut out), Err(Refusal::LogOutOfOrder));
    assert_eq!(merge_logs(&up, &down, &mut TransitionLog::with_capacity(0)), Err(Refusal::LogOutOfOrder), "before 15");
    assert_eq!((out.len(), out.free()), (0, 8));
}

/// The first and the second may be one log.
#[test]
fn a_log_with_itself() {
    let log = first(&[1, 2, 2, 3]);
    let mut out = TransitionLog::with_capacity(7);
    let rest = merge_logs(&log, &log, &mut out).unwrap();
    assert!(out.iter().map(|each| each.index.0).eq([1, 1, 2, 2, 2, 2, 3]));
    assert_eq!(format!("{rest:#?}"), format!("{:#?}", log.iter().skip(3).collect::<Vec<_>>()));
}

/// A rest can be kept, and outlives the log that was written.
#[test]
fn the_rest_outlives_the_third_log() {
    let (one, other) = (first(&[1]), second(&[1, 3]));
    let rest = {
        let mut out = TransitionLog::with_capacity(1);
        merge_logs(&one, &other, &mut out).unwrap()
    };
    assert!(rest.iter().eq(&other));
}
