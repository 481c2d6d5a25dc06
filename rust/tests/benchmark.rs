//! Parts of the benchmark: the powers that it fits, and the watcher of single rounds.

use baizeridge_tests::benchmark::growth::fit;
use baizeridge_tests::benchmark::load::Load;
use baizeridge_tests::benchmark::watch::Watched;
use baizeridge_tests::decoder;

#[test]
fn powers_are_found() {
    for (power, constant) in [(0.5, 3.0), (1.0, 0.2), (2.75, 1e-3)] {
        let points = [3.0, 5.0, 7.0, 11.0, 15.0f64].map(|x| (x, constant * x.powf(power)));
        let fitted = fit(points.into_iter());
        assert!((fitted.power - power).abs() < 1e-9 && (fitted.off - 1.0).abs() < 1e-9);
    }
    let bent = fit([(1.0, 1.0), (2.0, 8.0), (4.0, 16.0)].into_iter());
    assert!((bent.power - 2.0).abs() < 1e-9 && (bent.off - 4.0f64.powf(1.0 / 3.0)).abs() < 1e-9);
}

/// Whether or not the watcher keeps up.
#[test]
fn a_watched_decoding_writes_the_same() {
    for load in Load::pair(0, 7, 10_000, 300) {
        let decoded = decoder::decode(&load.input);
        let mut watched = Watched::new(&decoded.ends);
        for runs in 1..=3 {
            watched.decode(&load.input, &decoded.ends);
            assert_eq!(watched.result(), decoded.result);
            assert!(watched.seen.len() == load.rounds && watched.seen.iter().all(|times| times.len() <= runs));
        }
    }
}
