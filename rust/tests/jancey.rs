//! The run by Jancey's rule, beside the run by Lloyd's: small tables worked out apart from the library, what is
//! promised of every run, and each refusal with what it leaves.
#![allow(unsafe_code)]
use kohlenfloh::raw::{kf_run_jancey, KF_MOST_COORDINATES, KF_RUN_PLACES};
use kohlenfloh::{calls, Record, Refusal, Run, RunOptions, Table};

/// The table of some colours, each with its pixels.
fn table_of(colours: &[([u8; 3], u32)]) -> Table {
    let key = |[red, green, blue]: [u8; 3]| u32::from_be_bytes([0, red, green, blue]);
    let (keys, weights) = colours.iter().map(|(levels, pixels)| (key(*levels), *pixels)).unzip();
    Table::from_entries(keys, weights).unwrap()
}

/// The table of some levels R, each with its pixels; G and B are 0.
fn reds(levels: &[(u8, u32)]) -> Table {
    table_of(&levels.iter().map(|(red, pixels)| ([*red, 0, 0], *pixels)).collect::<Vec<_>>())
}

/// So many shades of a table by both rules, Lloyd's first; both runs are settled.
fn both(table: &Table, count: usize) -> [Run; 2] {
    let runs = [table.run(RunOptions::shades(count)).unwrap(), table.run_jancey(RunOptions::shades(count)).unwrap()];
    assert!(runs.iter().all(|run| run.settled));
    runs
}

#[test]
fn sheet_f_takes_eighteen_rounds() {
    let [lloyd, jancey] = both(&reds(&[(0, 1), (10, 1)]), 2);
    assert_eq!(lloyd.totals, [6400, 0]);
    assert_eq!(jancey.totals, [6400, 4096, 2601, 1681, 1089, 676, 441, 289, 196, 121, 81, 49, 36, 25, 16, 9, 4, 0]);
    assert_eq!((jancey.rounds, jancey.distances, jancey.total), (18, 38, 0));
    assert_eq!((&jancey.shades, &jancey.members), (&lloyd.shades, &lloyd.members));
}

#[test]
fn a_step_is_held_to_the_grid() {
    // From 40 to below 0, and from 4048 to above 4080: at the end of the grid each stands on its mean.
    for (levels, totals) in [([(0, 3), (10, 1)], [4800, 0]), ([(251, 1), (255, 1)], [1024, 0])] {
        let [lloyd, jancey] = both(&reds(&levels), 2);
        assert_eq!((&jancey.totals[..], &jancey.shades), (&totals[..], &lloyd.shades));
    }
}

#[test]
fn it_can_take_fewer_rounds() {
    let levels = [(80, 6), (107, 1), (124, 17), (150, 9), (171, 3), (174, 8), (180, 3), (255, 23)];
    let [lloyd, jancey] = both(&reds(&levels), 2);
    assert_eq!(lloyd.totals, [46_558_848, 21_914_649, 18_600_620, 16_588_122, 11_977_836, 11_443_119]);
    assert_eq!(jancey.totals, [46_558_848, 13_390_795, 11_443_119]);
    assert_eq!(jancey.shades.coordinates(), [4080, 0, 0, 2209, 0, 0]);
    assert_eq!((&jancey.shades, &jancey.members), (&lloyd.shades, &lloyd.members));
}

#[test]
fn it_can_end_with_other_shades() {
    let [lloyd, jancey] = both(&reds(&[(252, 8), (253, 1), (254, 3)]), 2);
    assert_eq!((&lloyd.totals[..], &lloyd.members[..]), (&[697, 228][..], &[0, 0, 1][..]));
    assert_eq!((&jancey.totals[..], &jancey.members[..]), (&[697, 384, 300, 240, 192][..], &[0, 1, 1][..]));
    assert_eq!(jancey.shades.coordinates(), [4032, 0, 0, 4060, 0, 0]);

    let [lloyd, jancey] = both(&table_of(&[([250, 254, 251], 8), ([250, 255, 253], 1), ([251, 253, 254], 5)]), 2);
    assert_eq!(lloyd.totals, [4022, 1140]);
    assert_eq!(jancey.totals, [4022, 2776, 2284, 1940, 1704, 1518, 1402, 1324, 1284, 1282]);
    assert_eq!(jancey.shades.coordinates(), [4000, 4064, 4016, 4013, 4053, 4061]);
}

#[test]
fn a_shade_with_no_group_stays() {
    let [lloyd, jancey] = both(&reds(&[(250, 7), (251, 1), (255, 6)]), 3);
    assert_eq!(jancey, lloyd);
    assert_eq!((jancey.members, jancey.shades.shade(0)), (vec![2, 2, 1], Some([4035, 0, 0])));
}

/// Tables of up to 300 colours that look random.
fn tables() -> impl Iterator<Item = Table> {
    (1..=300_u64).map(|seed| {
        let mut table = Table::with_room(300);
        let level = |n: u64| (n * n / 7 % (1 + seed * 13 % 256)) as u8;
        table.add(&(0..3 * seed).map(|place| level(place * seed + 5 * place)).collect::<Vec<u8>>()).unwrap();
        table
    })
}

#[test]
fn totals_never_rise_and_a_settled_run_is_at_rest() {
    let mut settled = 0;
    for table in tables() {
        for count in [1, 2, 5, 17, 64].into_iter().filter(|count| *count <= table.used()) {
            let run = table.run_jancey(RunOptions::shades(count).limit(60)).unwrap();
            assert!(run.totals.is_sorted_by(|one, next| one >= next), "{:?}", run.totals);
            assert!(run.total <= run.totals[run.rounds - 1]);
            assert_eq!(run.totals[0], table.run(RunOptions::shades(count).limit(1)).unwrap().totals[0]);
            if run.settled {
                // A round by Lloyd's rule groups alike, and moves no shade.
                let (mut shades, mut members) = (run.shades.clone(), run.members.clone());
                let round = table.plain_round(&mut shades, &mut members).unwrap();
                assert_eq!((round.moved, round.total, members), (0, run.total, run.members));
                settled += 1;
            }
        }
    }
    assert!(settled > 400, "{settled}");
}

#[test]
fn a_limit_of_0_means_100() {
    let pixel = |n: u64| [(n * 15_485_863) >> 3, (n * n * 31) >> 5, (n * 108_401_041) >> 11].map(|one| one as u8 % 64);
    let mut table = Table::with_room(128 * 128);
    table.add(&(0..128 * 128).flat_map(pixel).collect::<Vec<u8>>()).unwrap();
    let run = |limit: usize| table.run_jancey(RunOptions::shades(32).limit(limit)).unwrap();
    let (usual, longest) = (run(0), run(RunOptions::MOST_ROUNDS));
    assert_eq!((longest.rounds, longest.settled), (108, true));
    assert_eq!((usual.rounds, usual.settled, &usual.totals[..]), (100, false, &longest.totals[..100]));
    assert_eq!(usual, run(RunOptions::USUAL_LIMIT));
}

/// A run by Jancey's rule on the table of (0,0,0) and (10,0,0), whose red sum is 10, with so many members and totals
/// lent: the refusal's number, and whether what is lent is as it was and the answers are zeros.
fn refused(red: u64, count: usize, limit: usize, members: usize, totals: usize) -> (u32, bool) {
    let (record, keys, weights) = ([2, 2, red, 0, 0], [0, 655_360], [1, 1]);
    let (mut members, mut totals) = (vec![8; members], vec![5; totals]);
    let (mut shades, mut answer) = ([9; KF_MOST_COORDINATES], [9; KF_RUN_PLACES]);
    // SAFETY: each pointer and length is that of a vector or array of this function, and all that is written is apart.
    let number = unsafe {
        kf_run_jancey(
            &record,
            keys.as_ptr(),
            keys.len(),
            weights.as_ptr(),
            weights.len(),
            count,
            limit,
            members.as_mut_ptr(),
            members.len(),
            totals.as_mut_ptr(),
            totals.len(),
            &mut shades,
            &mut answer,
        )
    };
    let kept = members.iter().all(|member| *member == 8) && totals.iter().all(|total| *total == 5);
    (number, kept && shades == [0; KF_MOST_COORDINATES] && answer == [0; KF_RUN_PLACES])
}

#[test]
fn it_refuses_as_the_run_does_and_writes_zeros_alone() {
    // Each is made good in turn, and the next one shows.
    assert_eq!(refused(11, 65, 201, 1, 0), (2, true));
    assert_eq!(refused(10, 65, 201, 1, 0), (4, true));
    assert_eq!(refused(10, 0, 201, 1, 0), (4, true));
    assert_eq!(refused(10, 3, 201, 1, 0), (5, true));
    assert_eq!(refused(10, 2, 201, 1, 0), (6, true));
    assert_eq!(refused(10, 2, 200, 1, 200), (7, true));
    for (limit, totals) in [(0, 20), (0, 99), (20, 19), (200, 199)] {
        assert_eq!(refused(10, 2, limit, 2, totals), (7, true), "{totals} totals for {limit}");
    }
    assert_eq!(refused(10, 2, 0, 2, 100), (0, false));
}

#[test]
fn places_past_those_filled_stay() {
    let (record, keys, weights) = (Record::new(2, 2, [10, 0, 0]), [0, 655_360], [1, 1]);
    let (mut members, mut totals) = ([8; 3], [5; 20]);
    let ran = calls::run_jancey(record, &keys, &weights, 2, 20, &mut members, &mut totals).unwrap();
    assert_eq!((ran.rounds, ran.settled, ran.shades[6..].iter().sum::<u32>()), (18, true, 0));
    assert_eq!((members, totals[17], &totals[18..]), ([1, 0, 8], 0, &[5; 2][..]));
}

#[test]
fn refusals_of_the_safe_type_are_those_of_the_run() {
    let table = reds(&[(0, 1), (10, 1)]);
    for (options, refusal) in [
        (RunOptions::shades(0), Refusal::BadCount),
        (RunOptions::shades(65).limit(201), Refusal::BadCount),
        (RunOptions::shades(3).limit(201), Refusal::FewColours),
        (RunOptions::shades(2).limit(201), Refusal::BadLimit),
    ] {
        assert_eq!(table.run_jancey(options), Err(refusal));
        assert_eq!(table.run(options), Err(refusal));
    }
}
