//! The run with shades fixed from stock: small tables worked out by hand, what is promised of every run, the palette of
//! what it leaves, and each refusal with what it leaves.
#![allow(unsafe_code)]
mod tables;

use kohlenfloh::raw::{kf_run_fixed, KF_MOST_COORDINATES, KF_RUN_PLACES};
use kohlenfloh::{calls, Record, Refusal, Run, RunOptions, Shades, Table};
use tables::{reds, table_of, tables};

/// A shade of this level R; G and B are 0.
fn red(level: u8) -> [u8; 3] {
    [level, 0, 0]
}

/// The coordinates R of a run's shades; those of G and B are 0.
fn places(run: &Run) -> Vec<u32> {
    assert!((0..run.shades.count()).all(|number| run.shades.shade(number).unwrap()[1..] == [0, 0]));
    run.shades.coordinates().iter().copied().step_by(3).collect()
}

#[test]
fn a_fixed_shade_stays_and_the_free_one_moves_to_the_mean_of_its_group() {
    let table = reds(&[(0, 1), (2, 1), (4, 1), (100, 1), (110, 1)]);
    let run = table.run_fixed(&[red(3)], RunOptions::shades(2)).unwrap();
    assert_eq!((places(&run), run.fixed), (vec![48, 1680], 1));
    assert_eq!(run.members, [0, 0, 0, 1, 1]);
    // 0, 2 and 4 cost 48², 16² and 16²; 100 costs 160² from 110, and then both cost 80².
    assert_eq!(run.totals, [2304 + 256 + 256 + 25_600, 2304 + 256 + 256 + 6400 + 6400]);
    assert_eq!((run.rounds, run.settled, run.total), (2, true, run.totals[1]));
    // All begin in the fixed shade: 0, 2 and 4 look at it alone, 100 and 110 at both; then each looks at its own.
    assert_eq!(run.distances, 3 + 2 * 2 + 5);
    let once = table.run_fixed(&[red(3)], RunOptions::shades(2).limit(1)).unwrap();
    assert_eq!((once.rounds, once.settled, once.total, places(&once)), (1, false, run.total, places(&run)));
}

#[test]
fn it_is_settled_where_a_fixed_shade_is_off_its_mean() {
    let run = reds(&[(0, 3), (10, 1)]).run_fixed(&[red(2)], RunOptions::shades(2)).unwrap();
    assert_eq!((places(&run), &run.members[..]), (vec![32, 160], &[0, 1][..]));
    assert_eq!((run.rounds, run.settled, &run.totals[..], run.total), (1, true, &[3 * 32 * 32][..], 3 * 32 * 32));
}

#[test]
fn starts_go_on_from_all_fixed_shades_and_none_is_the_mean() {
    // 50 is the farthest from both, and so at rest at once; it is not the farthest from one of them alone.
    for fixed in [[red(0), red(100)], [red(100), red(0)]] {
        let run = reds(&[(1, 1), (50, 1), (99, 1)]).run_fixed(&fixed, RunOptions::shades(3)).unwrap();
        assert_eq!((places(&run)[2], run.members[1], &run.totals[..], run.settled), (800, 2, &[512][..], true));
    }
    // 0 and 10 are as far from 5: the lowest key is taken. The mean of the table is 3.
    let run = reds(&[(0, 2), (10, 1)]).run_fixed(&[red(5)], RunOptions::shades(2)).unwrap();
    assert_eq!((places(&run), &run.members[..]), (vec![80, 0], &[1, 0][..]));
}

#[test]
fn the_order_of_the_fixed_shades_is_theirs() {
    let table = reds(&[(0, 1), (10, 1), (200, 1)]);
    for fixed in [[red(0), red(9)], [red(9), red(0)]] {
        let run = table.run_fixed(&fixed, RunOptions::shades(3)).unwrap();
        assert_eq!(places(&run), [16 * u32::from(fixed[0][0]), 16 * u32::from(fixed[1][0]), 3200]);
        assert!(table.palette_of(&run).unwrap().entries().eq([fixed[0], fixed[1], red(200)]));
    }
}

#[test]
fn colours_are_wanted_for_the_free_shades_alone() {
    // Two colours, two fixed shades that are neither: four shades, which the run without fixed ones refuses.
    let two = reds(&[(0, 1), (10, 1)]);
    let run = two.run_fixed(&[red(2), red(7)], RunOptions::shades(4)).unwrap();
    assert_eq!((places(&run), &run.members[..]), (vec![32, 112, 160, 0], &[3, 2][..]));
    assert_eq!((&run.totals[..], run.settled), (&[0][..], true));
    assert_eq!(two.run(RunOptions::shades(4)), Err(Refusal::FewColours));
    assert_eq!(two.run_fixed(&[red(2), red(7)], RunOptions::shades(5)), Err(Refusal::FewColours));
    // A colour that is fixed is none for a free shade, and is one however often it is fixed and however many pixels
    // have it.
    let three = reds(&[(0, 1000), (10, 1), (20, 1)]);
    for (fixed, most) in [(vec![red(10)], 3), (vec![red(10); 2], 4), (vec![red(0), red(20), red(0)], 4)] {
        assert!(three.run_fixed(&fixed, RunOptions::shades(most)).is_ok(), "{fixed:?}");
        let more = three.run_fixed(&fixed, RunOptions::shades(most + 1));
        assert_eq!(more, Err(Refusal::FewColours), "{fixed:?}");
    }
    // Every colour is fixed, or there is none.
    let all = [red(0), red(10), red(20)];
    assert_eq!(three.run_fixed(&all, RunOptions::shades(4)), Err(Refusal::FewColours));
    assert_eq!(Table::with_room(0).run_fixed(&all, RunOptions::shades(4)), Err(Refusal::FewColours));
}

#[test]
fn of_equal_fixed_shades_the_lower_number_has_the_colours_and_none_is_mapped() {
    let table = reds(&[(0, 1), (10, 1), (200, 1)]);
    let run = table.run_fixed(&[red(9), red(9)], RunOptions::shades(3)).unwrap();
    assert_eq!((places(&run), &run.members[..]), (vec![144, 144, 3200], &[0, 0, 2][..]));
    let palette = table.palette_of(&run).unwrap();
    assert_eq!(palette.bytes(), [9, 0, 0, 9, 0, 0, 200, 0, 0]);
    assert_eq!(palette.map(&[0; 3]), Err(Refusal::TwinShade { lower: 0, higher: 1 }));
}

#[test]
fn a_shade_that_loses_its_colours_stays() {
    // The start (100,100) is drawn to the right by two heavy colours. The left shade takes its own colour then, and the
    // right ones take the heavy ones. The fixed shade has no colour either.
    let colours = [
        ([5, 100, 0], 1),
        ([52, 100, 0], 1000),
        ([100, 100, 0], 1),
        ([149, 70, 0], 100),
        ([149, 130, 0], 100),
        ([160, 60, 0], 1000),
        ([160, 140, 0], 1000),
        ([210, 40, 0], 1),
        ([210, 160, 0], 1),
    ];
    let table = table_of(&colours);
    let run = table.run_fixed(&[[100, 100, 200]], RunOptions::shades(5)).unwrap();
    let first = table.run_fixed(&[[100, 100, 200]], RunOptions::shades(5).limit(1)).unwrap();
    let lost = (1..5).find(|number| !run.members.contains(number)).unwrap();
    assert_eq!(first.members.iter().filter(|member| **member == lost).count(), 3);
    // 16 times (100 + 2 · 100 · 149) / 201, rounded.
    assert_eq!(run.shades.shade(lost as usize), Some([2380, 1600, 0]));
    assert!(run.settled && !run.members.contains(&0));
    assert_eq!(table.palette_of(&run).unwrap().entry(0), Some([100, 100, 200]));
}

/// The fixed shades that are tried with a table: some of its colours, every so many, and shades of other levels.
fn stock_of(table: &Table, count: usize) -> Vec<[u8; 3]> {
    let levels = |key: u32| {
        let [_, red, green, blue] = key.to_be_bytes();
        [red, green, blue]
    };
    let colours = table.keys().iter().step_by(table.used() / count + 1).map(|key| levels(*key));
    let others = (1..=count as u8).map(|number| [37 * (number % 7), 255 - number, 3 * number]);
    colours.zip(others).flat_map(|(colour, other)| [colour, other]).take(count).collect()
}

#[test]
fn totals_never_rise_and_free_shades_stand_on_their_means() {
    let mut settled = 0;
    for table in tables().filter(|table| table.used() >= 4) {
        for (fixed, count) in [(1, 2), (1, 8), (3, 5), (16, 17), (30, 64)] {
            let stock = stock_of(&table, fixed);
            let Ok(run) = table.run_fixed(&stock, RunOptions::shades(count).limit(60)) else { continue };
            assert_eq!(run.fixed, stock.len());
            assert!(run.totals.is_sorted_by(|one, next| one >= next), "{:?}", run.totals);
            assert!(run.total <= run.totals[run.rounds - 1]);
            let front = stock.as_flattened().iter().map(|level| 16 * u32::from(*level));
            assert!(run.shades.coordinates()[..3 * stock.len()].iter().copied().eq(front));
            // By the last grouping no free shade moves; in a settled run a round groups alike, and moves none either.
            let by_groups = moved(&table, &run);
            assert_eq!(by_groups[stock.len()..], shades_of(&run)[stock.len()..]);
            if run.settled {
                let (mut shades, mut members) = (run.shades.clone(), run.members.clone());
                let round = table.plain_round(&mut shades, &mut members).unwrap();
                assert_eq!((round.total, members), (run.total, run.members));
                assert!((stock.len()..count).all(|number| shades.shade(number) == run.shades.shade(number)));
                settled += 1;
            }
        }
    }
    assert!(settled > 400, "{settled}");
}

/// The places of a run's shades.
fn shades_of(run: &Run) -> Vec<[u32; 3]> {
    (0..run.shades.count()).map(|number| run.shades.shade(number).unwrap()).collect()
}

/// The rounded means of a run's last groups, and the places of shades that have none.
fn moved(table: &Table, run: &Run) -> Vec<[u32; 3]> {
    let mut sums = vec![[0_u64; 4]; run.shades.count()];
    for ((key, weight), member) in table.entries().zip(&run.members) {
        let ([_, levels @ ..], weight) = (key.to_be_bytes(), u64::from(weight));
        let group = &mut sums[*member as usize];
        group[3] += weight;
        (0..3).for_each(|channel| group[channel] += weight * 16 * u64::from(levels[channel]));
    }
    let mean = |sum: u64, pixels: u64| ((2 * sum + pixels) / (2 * pixels)) as u32;
    let place = |([red, green, blue, pixels], shade): ([u64; 4], [u32; 3])| match pixels {
        0 => shade,
        _ => [red, green, blue].map(|sum| mean(sum, pixels)),
    };
    sums.into_iter().zip(shades_of(run)).map(place).collect()
}

#[test]
fn the_palette_of_a_run_has_the_fixed_bytes_in_front() {
    let (mut grouped, mut alone) = (0, 0);
    for table in tables().filter(|table| table.used() >= 4) {
        for (fixed, count) in [(1, 2), (3, 5), (16, 17)] {
            let stock = stock_of(&table, fixed);
            let Ok(run) = table.run_fixed(&stock, RunOptions::shades(count)) else { continue };
            let palette = table.palette_of(&run).unwrap();
            assert!(palette.entries().take(stock.len()).eq(stock.iter().copied()));
            // With none fixed, the groups would change some of them; free shades have the same levels.
            let free = table.palette_from_groups(&run.shades, &run.members).unwrap();
            assert_eq!(palette.bytes()[3 * stock.len()..], free.bytes()[3 * stock.len()..]);
            grouped += usize::from(palette != free);
            alone += (0..stock.len()).filter(|number| !run.members.contains(&(*number as u32))).count();
        }
    }
    assert!(grouped > 100 && alone > 100, "{grouped} {alone}");
}

#[test]
fn as_many_are_fixed_as_leave_one_free() {
    let all: Vec<[u8; 3]> = (0..70).map(|number| [3 * number, number, 200 - number]).collect();
    let table = table_of(&all.iter().map(|levels| (*levels, 1)).collect::<Vec<_>>());
    let most = RunOptions::MOST_FIXED;
    let run = table.run_fixed(&all[..most], RunOptions::shades(Shades::MOST)).unwrap();
    assert_eq!((run.shades.count(), run.fixed, run.settled), (64, 63, true));
    assert!(table.palette_of(&run).unwrap().entries().take(most).eq(all[..most].iter().copied()));
    for count in [0, 1, 62, 63, 65, usize::MAX] {
        assert_eq!(table.run_fixed(&all[..most], RunOptions::shades(count)), Err(Refusal::BadCount), "{count}");
    }
    for fixed in [0, 64, 65] {
        let run = table.run_fixed(&all[..fixed], RunOptions::shades(64));
        assert_eq!(run, Err(Refusal::BadPalette), "{fixed} fixed");
    }
}

#[test]
fn a_list_is_of_3_to_189_bytes_in_whole_triples() {
    let table = table_of(&(0..70).map(|number| ([number, 3 * number, 7], 1)).collect::<Vec<_>>());
    let (record, keys, weights) = (table.record(), table.keys(), table.weights());
    for length in 0..=200 {
        let (fixed, mut members, mut totals) = (vec![200; length], [0; 70], [0; 100]);
        let ran = calls::run_fixed(record, keys, weights, &fixed, 64, 0, &mut members, &mut totals);
        let good = (3..=189).contains(&length) && length % 3 == 0;
        assert_eq!(ran.err(), (!good).then_some(Refusal::BadPalette), "{length} bytes");
    }
}

#[test]
fn a_limit_of_0_means_100() {
    let pixel = |n: usize| [n * n % 251, n * n / 251 % 256, n * 7919 % 253].map(|level| level as u8);
    let mut table = Table::with_room(128 * 128);
    table.add(&(0..128 * 128).flat_map(pixel).collect::<Vec<u8>>()).unwrap();
    let run = |limit: usize| table.run_fixed(&[[128; 3]], RunOptions::shades(12).limit(limit)).unwrap();
    let (usual, longest) = (run(0), run(RunOptions::MOST_ROUNDS));
    assert_eq!((longest.rounds, longest.settled), (137, true));
    assert_eq!((usual.rounds, usual.settled, &usual.totals[..]), (100, false, &longest.totals[..100]));
    assert_eq!(usual, run(RunOptions::USUAL_LIMIT));
}

/// A run with fixed shades on the table of (0,0,0) and (10,0,0), whose red sum is 10, with so many bytes of 200 for the
/// fixed shades, and so many members and totals lent: the refusal's number, and whether what is lent is as it was and
/// the answers are zeros.
fn refused(red: u64, fixed: usize, [count, limit]: [usize; 2], members: usize, totals: usize) -> (u32, bool) {
    let (record, keys, weights) = ([2, 2, red, 0, 0], [0, 655_360], [1, 1]);
    let (fixed, mut members, mut totals) = (vec![200; fixed], vec![8; members], vec![5; totals]);
    let (mut shades, mut answer) = ([9; KF_MOST_COORDINATES], [9; KF_RUN_PLACES]);
    // SAFETY: each pointer and length is that of a vector or array of this function, and all that is written is apart.
    let number = unsafe {
        kf_run_fixed(
            &record,
            keys.as_ptr(),
            keys.len(),
            weights.as_ptr(),
            weights.len(),
            fixed.as_ptr(),
            fixed.len(),
            count,
            limit,
            members.as_mut_ptr(),
            members.len(),
            totals.as_mut_ptr(),
            totals.len(),
            &mut shades,
            &mut answer,
        )
    };
    let kept = members.iter().all(|member| *member == 8) && totals.iter().all(|total| *total == 5);
    (number, kept && shades == [0; KF_MOST_COORDINATES] && answer == [0; KF_RUN_PLACES])
}

#[test]
fn refusals_come_in_their_order_and_write_zeros_alone() {
    // Each is made good in turn, and the next one shows.
    assert_eq!(refused(11, 4, [65, 201], 1, 0), (2, true));
    assert_eq!(refused(10, 4, [65, 201], 1, 0), (10, true));
    assert_eq!(refused(10, 0, [65, 201], 1, 0), (10, true));
    assert_eq!(refused(10, 3, [65, 201], 1, 0), (4, true));
    assert_eq!(refused(10, 3, [0, 201], 1, 0), (4, true));
    assert_eq!(refused(10, 3, [1, 201], 1, 0), (4, true));
    assert_eq!(refused(10, 3, [4, 201], 1, 0), (5, true));
    assert_eq!(refused(10, 3, [3, 201], 1, 0), (6, true));
    assert_eq!(refused(10, 3, [3, 200], 1, 200), (7, true));
    for (limit, totals) in [(0, 20), (0, 99), (20, 19), (200, 199)] {
        assert_eq!(refused(10, 3, [3, limit], 2, totals), (7, true), "{totals} totals for {limit}");
    }
    assert_eq!(refused(10, 3, [3, 0], 2, 100), (0, false));
}

#[test]
fn places_past_those_filled_stay() {
    let (record, keys, weights) = (Record::new(2, 2, [10, 0, 0]), [0, 655_360], [1, 1]);
    let (mut members, mut totals) = ([8; 3], [5; 20]);
    let ran = calls::run_fixed(record, &keys, &weights, &[9, 0, 0], 2, 20, &mut members, &mut totals).unwrap();
    assert_eq!((ran.rounds, ran.settled, ran.shades[6..].iter().sum::<u32>()), (1, true, 0));
    assert_eq!((members, totals[0], &totals[1..]), ([1, 0, 8], 256, &[5; 19][..]));
}

#[test]
fn a_run_with_none_fixed_says_so() {
    let table = reds(&[(0, 1), (10, 1)]);
    for run in [table.run(RunOptions::shades(2)).unwrap(), table.run_jancey(RunOptions::shades(2)).unwrap()] {
        assert_eq!(run.fixed, 0);
        assert_eq!(table.palette_of(&run), table.palette_from_groups(&run.shades, &run.members));
    }
}
