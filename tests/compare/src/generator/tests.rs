//! What the scripts reach.

use super::*;

/// A change of the generator must not lose a case unseen.
#[test]
fn every_case_occurs() {
    let mut counts = Counts::default();
    for number in 1..=300 {
        script(1, number, &mut counts);
    }
    let cases = [
        counts.bench_scripts,
        counts.rig_scripts,
        counts.spoiled_scripts,
        counts.made_up_ticks,
        counts.give_ups,
        counts.doubled,
        counts.late,
        counts.misdirected,
        counts.decisions - counts.decisions_above_view_0,
        counts.decisions_above_view_0,
        counts.decided_after_missed,
        counts.open_taken_over,
        counts.older_taken_over,
        counts.stopped_boxes,
        counts.malformed,
        counts.ignored,
        counts.refused[9],
        counts.refused[10],
    ];
    let power = [
        counts.storing_scripts,
        counts.stores,
        counts.steps_lost,
        counts.frames_never_left,
        counts.commands_never_left,
        counts.blackouts,
        counts.refused[16],
        counts.asking_scripts,
        counts.refused[17],
    ];
    let readings = [
        counts.handed_counts,
        counts.handed_missing,
        counts.handed_singles,
        counts.missing_singles,
    ];
    let (asks, marks) = (counts.asks.all(), counts.marks.all());
    let (can, cannot) = counts.marks.on_the_bench();
    let cases = cases.iter().chain(&readings).chain(&counts.single_classes);
    let cases = cases.chain(&power).chain(&counts.returns).chain(&asks);
    let by_sort = counts.pairs.by_sort();
    let mut cases = cases.chain(&marks).chain(&can).chain(&by_sort);
    // Returns with 10,000 missed periods take time, so there are few.
    assert!(cases.all(|&count| count >= 5), "{counts}");
    assert_eq!(cannot, vec![0; cannot.len()], "{counts}");
    assert_eq!(counts.marks.otherwise, 0, "{counts}");
}

/// Every allowed pair is named, decides and takes over, and all that is unfit
/// occurs.
#[test]
fn every_allowed_pair_is_played() {
    let mut counts = Counts::default();
    for number in 1..=2_000 {
        script(1, number, &mut counts);
    }
    let by_pair = counts.pairs.by_pair();
    assert!(by_pair.iter().all(|&count| count > 0), "{counts}");
}

#[test]
fn only_rig_scripts_have_singles() {
    let mut met = [false; 2];
    for number in 1..=100 {
        let mut counts = Counts::default();
        let script = script(3, number, &mut counts);
        met[usize::from(script.is_rig)] |= counts.handed_singles > 0;
    }
    assert_eq!(met, [false, true]);
}

/// One script in three, and groups of every size.
#[test]
fn scripts_with_power_cycles_are_of_every_group_size() {
    let mut met = [0; 10];
    for number in 1..=150 {
        let script = script(6, number, &mut Counts::default());
        assert_eq!(script.host == Host::Storing, number % 3 == 0);
        if script.host == Host::Storing {
            assert!(script.is_rig);
            met[usize::from(script.group.boxes)] += 1;
        }
    }
    assert!(met[3..].iter().all(|&count| count > 0), "{met:?}");
}

/// Half of the scripts with power cycles have asks, the others none.
#[test]
fn every_second_script_with_power_cycles_has_asks() {
    for number in 1..=60 {
        let mut counts = Counts::default();
        let script = script(8, number, &mut counts);
        assert_eq!(counts.asks.ok > 0, number % 6 == 0, "{number}");
        assert!(script.host == Host::Storing || counts.asks == Default::default());
    }
}

#[test]
fn scripts_are_made_again_from_seed_and_number() {
    let input = |seed, number| script(seed, number, &mut Counts::default()).input;
    assert_eq!(input(4, 9), input(4, 9));
    assert_ne!(input(4, 9), input(4, 10));
}
