//! What `eval` and `Fir` answer at their edges.
use phase::{Error, Fir, FirError, Place, all_names, eval};

const SUM: &str = "phaser x sum 4\nsource s s.csv -> x\nsource t t.csv -> x\nsink out x\n";

#[test]
fn a_source_that_is_too_long_is_named() {
    // The zeros take no memory until they are read, and they are not.
    let long = vec![0; 67_108_865];
    let why = eval(SUM, &[&[1], &long]).unwrap_err();
    assert_eq!(why, Error::TooManySamples { source: 1 });
    assert_eq!(why.to_string(), "source 1: more than 67108864 samples");
}

#[test]
fn a_value_out_of_range_has_the_name_of_its_place() {
    let graph =
        "phaser a sum 4\nphaser b sum 4\nsource s s.csv -> a\nfir f a -> b shift 0 taps 2\n";
    let why = eval(graph, &[&[1, i64::MAX]]).unwrap_err();
    assert_eq!(why, Error::TooBig { place: Place::Task(1), at: 1 });
    assert_eq!(all_names(graph).unwrap().tasks[1], "f");
}

#[test]
fn taps_are_looked_at_first() {
    for (taps, shift) in [(&[][..], 0), (&[1; 65], 0), (&[1 << 31], 0), (&[1], 63)] {
        assert_eq!(Fir::new(taps, shift), Err(FirError::Taps));
    }
}

#[test]
fn a_block_in_place_is_as_beside() {
    let mut beside = Fir::new(&[2, -1, 3], 1).unwrap();
    let mut in_place = beside.clone();
    for block in [&[5, -7, 9, 4][..], &[1], &[0, 8]] {
        let (mut out, mut over) = (vec![0; block.len()], block.to_vec());
        beside.filter(block, &mut out).unwrap();
        in_place.filter_in_place(&mut over).unwrap();
        assert_eq!(over, out);
    }
    let mut over = [1, i64::MAX, 3];
    assert_eq!(
        Fir::new(&[2], 0).unwrap().filter_in_place(&mut over),
        Err(FirError::TooBig { done: 1 })
    );
    assert_eq!(over, [2, i64::MAX, 3]);
}
