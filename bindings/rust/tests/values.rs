//! The plain values, and what sets and logs show and are compared by.
mod bench;
use bench::{texture, EXTENT, FLAGS, MASK, TEXTURE};
use texture_tracker::*;

#[test]
fn every_state_is_written_and_read_back() {
    for state in (0..=u16::MAX).map(State) {
        assert_eq!(state.to_string().parse(), Ok(state));
        assert_eq!(format!("{state:#}").parse(), Ok(state));
        assert_eq!(uses::name(state), format!("{state:#}"));
    }
}

#[test]
fn words_that_are_no_state() {
    for (text, word) in [("", ""), ("RESOURCE|", ""), ("65536", "65536"), ("-1", "-1"), ("COPY_DST |8", "COPY_DST ")] {
        assert_eq!(text.parse::<State>().unwrap_err().word(), word);
    }
    assert_eq!("none|8".parse::<State>().unwrap_err().word(), "none");
}

#[test]
fn selectors() {
    let all = Selector::new(Mip(0)..Mip(2), Layer(0)..Layer(4));
    assert_eq!(all, EXTENT.full_range());
    assert_eq!(Selector::from((Mip(0)..=Mip(1), Layer(0)..=Layer(3))), all);
    assert_eq!(Selector::mip(Mip(1), EXTENT), Selector::new(Mip(1), Layer(0)..Layer(4)));
    assert_eq!(Selector::layer(Layer(3), EXTENT), Selector::new(Mip(0)..Mip(2), Layer(3)));
    assert!(all.contains(Mip(1), Layer(3)) && !all.contains(Mip(2), Layer(0)) && !all.contains(Mip(0), Layer(4)));
    let copy = all;
    assert_eq!((copy, all.layers), (all, Span { start: Layer(0), end: Layer(4) }));
}

/// Past the largest number there is no end: nothing is selected, and a call refuses it.
#[test]
fn the_largest_number() {
    let most = u32::MAX;
    assert!(Span::from(Layer(most)).is_empty());
    assert_eq!(Span::from(Layer(0)..=Layer(most)), Layer(0)..Layer(most));
    let mut scope = UsageScope::open(1, EXTENT, FLAGS).unwrap();
    let answer = scope.merge_single(TEXTURE, Some(Selector::layer(Layer(most), EXTENT)), State(8));
    assert_eq!(answer, Err(Refusal::LayersEmpty(Span::from(Layer(most))).into()));
    let answer = scope.merge_single(TEXTURE, Some(Selector::mip(Mip(most), EXTENT)), State(8));
    assert_eq!(answer, Err(Refusal::MipsEmpty(Span::from(Mip(most))).into()));
}

#[test]
fn equal_scopes() {
    let (one, other) = (bench::many(8), bench::many(8));
    assert_eq!(one, other);
    assert_ne!(one, bench::many(2));
    assert_ne!(one, bench::single(&[8]));
    let flags = UsageFlags { exclusive: State(4), ..FLAGS };
    assert_ne!(bench::scope(), UsageScope::open(1, EXTENT, flags).unwrap());
    assert_ne!(bench::scope(), UsageScope::open(2, EXTENT, FLAGS).unwrap());
    let mut cleared = bench::many(8);
    cleared.clear();
    assert_eq!(cleared, bench::scope());
}

#[test]
fn equal_trackers_and_logs() {
    assert_eq!(bench::tracked(&[2, 8]), bench::tracked(&[2, 8]));
    assert_ne!(bench::tracked(&[2, 8]), bench::tracked(&[4, 8]), "the start counts");
    assert_ne!(bench::tracker(), TextureTracker::open(1, EXTENT, FLAGS, State(0)).unwrap());
    let (mut tracker, mut one) = (bench::tracked(&[4]), bench::log());
    assert_eq!(one, bench::log());
    tracker.set_single(TEXTURE, bench::part(), State(8), &mut one).unwrap();
    assert_ne!(one, bench::log());
    assert_ne!(bench::log(), TransitionLog::with_capacity(9));
}

/// Names where the set was opened with wgpu's flags, numbers elsewhere.
#[test]
fn what_debug_says() {
    assert_eq!(
        format!("{:?}", bench::many(8)),
        "{TrackerIndex(0): [mip 0, layer 0: 8192, mip 0, layers 1 to 2: 8, mip 0, layer 3: 8192, \
         mip 1, layers 0 to 3: 8192]}"
    );
    let mut tracker = TextureTracker::open(1, EXTENT, uses::FLAGS, uses::ORDERED).unwrap();
    let mut log = bench::log();
    for state in [uses::COPY_DST, uses::RESOURCE] {
        tracker.set_single(TEXTURE, EXTENT.full_range(), state, &mut log).unwrap();
    }
    assert_eq!(
        format!("{tracker:?}"),
        "{TrackerIndex(0): Halves { start: [mips 0 to 1, layers 0 to 3: COPY_DST], \
         end: [mips 0 to 1, layers 0 to 3: RESOURCE] }}"
    );
    let [transition] = log.iter().collect::<Vec<_>>()[..] else { panic!("one transition") };
    assert_eq!(transition.to_string(), "texture 0, mips 0 to 1, layers 0 to 3: 8 to 16");
    assert_eq!(format!("{transition:#}"), "texture 0, mips 0 to 1, layers 0 to 3: COPY_DST to RESOURCE");
}

#[test]
fn iterating_a_log() {
    let (mut tracker, mut log) = (bench::tracked(&[4]), bench::log());
    tracker.set_single(TEXTURE, bench::part(), State(8), &mut log).unwrap();
    let seen: Vec<_> = (&log).into_iter().collect();
    assert_eq!((log.iter().len(), &seen), (1, &vec![bench::transition(bench::part(), 4, 8)]));
    assert_eq!(log.drain_transitions().collect::<Vec<_>>(), seen);
    assert!(log.is_empty());
}

/// The largest texture, with other flags: lines of at most 80 characters, every mip once, and dots for the unknown.
#[test]
fn a_large_grid() {
    let extent = Extent::new(16, 256);
    let mut tracker = TextureTracker::open(1, extent, FLAGS, MASK).unwrap();
    let mut log = TransitionLog::with_room_for(1, extent);
    let camera = Selector::new(Mip(3), Layer(100)..Layer(110));
    tracker.set_single(texture(0, extent), camera, State(8), &mut log).unwrap();
    let picture = tracker.end(TrackerIndex(0)).unwrap().grid(uses::name).to_string();
    assert!(picture.lines().all(|line| line.chars().count() <= 80 && !line.ends_with(' ')), "{picture}");
    for mip in 0..16 {
        let head = |word: &&str| *word == mip.to_string();
        let heads = picture.lines().filter(|line| line.starts_with("texture 0 "));
        assert_eq!(heads.flat_map(|line| line.split(' ').skip(2)).filter(head).count(), 1, "{picture}");
    }
    let rows: Vec<_> = picture.lines().map(|line| line.split("  ").next().unwrap()).collect();
    assert_eq!(rows[..4], ["texture 0", "layers 0 to 99", "layers 100 to 109", "layers 110 to 255"]);
    assert_eq!(picture.matches("COPY_DST").count(), 1, "{picture}");
    assert_eq!(format!("{:400}", tracker.end(TrackerIndex(0)).unwrap().grid(uses::name)).lines().count(), 4);
}

/// Sets can go to another thread, and be read from several.
#[test]
fn threads() {
    fn both<T: Send + Sync>() {}
    both::<UsageScope>();
    both::<TextureTracker>();
    both::<TransitionLog>();
}
