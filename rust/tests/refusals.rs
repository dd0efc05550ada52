//! Each refusal, met through the safe types, and what is left unchanged by it.
use kohlenfloh::{calls, Palette, Picture, Record, Refusal, RunOptions, Shades, Table};

/// A table of two colours.
fn two_colours() -> Table {
    let mut table = Table::with_room(4);
    table.add(&[0, 0, 0, 10, 0, 0]).unwrap();
    table
}

#[test]
fn a_refusal_tells_number_name_what_it_carries_and_sentence() {
    let known = (1..100).filter_map(Refusal::from_number).filter(|refusal| !matches!(refusal, Refusal::Unknown { .. }));
    let numbers: Vec<u32> = known.clone().map(Refusal::number).collect();
    assert_eq!(numbers, (1..=15).chain([18]).collect::<Vec<u32>>());
    for refusal in known {
        assert!(refusal.to_string().starts_with(&format!("{} {}", refusal.number(), refusal.name())));
        assert!(refusal.to_string().ends_with(&format!(": {}", refusal.sentence())));
    }
    assert!(Refusal::Full { taken: 7 }.to_string().starts_with("3 FULL, 7 pixels taken: the next pixel"));
    assert!(Refusal::BadHeader { offset: 9 }.to_string().starts_with("12 BAD HEADER at offset 9: the offset"));
    let twins = Refusal::TwinShade { lower: 1, higher: 3 }.to_string();
    assert_eq!(twins, "18 TWIN SHADE, entries 1 and 3: two entries of the palette are equal");
    assert_eq!(Refusal::from_number(18), Some(Refusal::TwinShade { lower: 0, higher: 0 }));
}

#[test]
fn an_unknown_number_is_a_refusal_of_its_own() {
    for number in [1000, 1 << 31, u32::MAX] {
        let refusal = Refusal::from_number(number).unwrap();
        assert_eq!(refusal, Refusal::Unknown { number });
        assert_eq!(refusal.number(), number);
        assert_eq!(refusal.to_string(), format!("{number} UNKNOWN: a number that has no name here"));
    }
}

#[test]
fn bad_strip() {
    let mut table = two_colours();
    assert_eq!(table.add(&[1, 2, 3, 4]), Err(Refusal::BadStrip));
    assert_eq!(table.entries().collect::<Vec<_>>(), [(0, 1), (655_360, 1)]);
    assert_eq!(Palette::from_bytes(&[1, 2, 3]).unwrap().map(&[1, 2]), Err(Refusal::BadStrip));
}

#[test]
fn bad_table() {
    let cases: [(u64, u64, &[u32], &[u32]); 8] = [
        (3, 3, &[1, 2], &[1, 1]),
        (2, 3, &[1, 2], &[3]),
        (u64::MAX, 1, &[1], &[1]),
        (1, 1, &[16_777_216], &[1]),
        (2, 2, &[5, 5], &[1, 1]),
        (2, 1, &[5, 6], &[1, 0]),
        (1, 2, &[5], &[1]),
        (1, 16_777_217, &[5], &[16_777_217]),
    ];
    for (used, pixels, keys, weights) in cases {
        let blue = keys.iter().zip(weights).map(|(key, weight)| u64::from(key & 255) * u64::from(*weight)).sum();
        let table = Table::from_parts(Record::new(used, pixels, [0, 0, blue]), keys.to_vec(), weights.to_vec());
        assert_eq!(table.unwrap_err(), Refusal::BadTable, "{used} {pixels} {keys:?} {weights:?}");
    }
}

/// Record, keys and weights of two pixels (1,2,3) and three of (0,0,255).
fn two_and_three() -> (Record, Vec<u32>, Vec<u32>) {
    (Record::new(2, 5, [2, 4, 771]), vec![255, 66_051], vec![3, 2])
}

/// Sums that are not those of that table: one off in each channel, two off that cancel, exchanged, as great as can be,
/// and some that differ by numbers in which a machine's numbers or packed sums agree.
const UNTRUE: [[u64; 3]; 14] = [
    [1, 4, 771],
    [3, 4, 771],
    [2, 3, 771],
    [2, 5, 771],
    [2, 4, 770],
    [2, 4, 772],
    [3, 3, 771],
    [2, 5, 770],
    [2, 771, 4],
    [u64::MAX, 4, 771],
    [2, 4 + (1 << 32), 771],
    [2 + (1 << 48), 4, 771],
    [1, 4 + 256, 771],
    [2, 4 + 3, 771 - 768],
];

#[test]
fn bad_table_by_a_channel_sum_in_every_call_that_takes_a_table() {
    let (record, keys, weights) = two_and_three();
    assert!(Table::from_parts(record, keys.clone(), weights.clone()).is_ok());
    for sums in UNTRUE {
        let untrue = Record::new(2, 5, sums);
        let (mut lent, mut keys, mut weights) = (untrue, keys.clone(), weights.clone());
        for strip in [[].as_slice(), &[1, 2, 3], &[9, 9, 9]] {
            let added = calls::add_strip(&mut lent, &mut keys, &mut weights, strip);
            assert_eq!((added, lent), (Err(Refusal::BadTable), untrue), "{sums:?}");
        }
        let (mut shades, mut members, mut totals, mut palette) = ([0; 3], [0; 2], [0; 100], [9; 3]);
        let plain = calls::plain_round(untrue, &keys, &weights, &mut shades, &mut members);
        let short = calls::short_round(untrue, &keys, &weights, &mut shades, &mut members);
        assert_eq!((plain, short), (Err(Refusal::BadTable), Err(Refusal::BadTable)), "{sums:?}");
        for run in [calls::run, calls::run_jancey] {
            let run = run(untrue, &keys, &weights, 1, 0, &mut members, &mut totals);
            assert_eq!(run, Err(Refusal::BadTable), "{sums:?}");
        }
        let run = calls::run_fixed(untrue, &keys, &weights, &[9; 3], 2, 0, &mut members, &mut totals);
        assert_eq!(run, Err(Refusal::BadTable), "{sums:?}");
        let made = calls::palette_from_groups(untrue, &keys, &weights, &shades, &members, &mut palette);
        assert_eq!((made, palette), (Err(Refusal::BadTable), [9; 3]), "{sums:?}");
        let made = calls::palette_from_groups_fixed(untrue, &keys, &weights, &shades, &members, 0, &mut palette);
        assert_eq!((made, palette), (Err(Refusal::BadTable), [9; 3]), "{sums:?}");
        assert_eq!((keys, weights), (vec![255, 66_051], vec![3, 2]));
    }
}

#[test]
fn bad_table_by_a_channel_sum_where_no_entry_is_used() {
    for sums in [[1, 0, 0], [0, 1, 0], [0, 0, 1], [u64::MAX; 3]] {
        let table = Table::from_parts(Record::new(0, 0, sums), vec![7; 2], vec![9; 2]);
        assert_eq!(table.unwrap_err(), Refusal::BadTable, "{sums:?}");
    }
    assert_eq!(Table::from_parts(Record::default(), vec![7; 2], vec![9; 2]).unwrap().average(), None);
}

#[test]
fn a_bad_strip_hands_an_untrue_record_back() {
    let (_, mut keys, mut weights) = two_and_three();
    for sums in UNTRUE {
        let mut record = Record::new(2, 5, sums);
        let added = calls::add_strip(&mut record, &mut keys, &mut weights, &[1, 2, 3, 4]);
        assert_eq!((added, record), (Err(Refusal::BadStrip), Record::new(2, 5, sums)));
    }
}

#[test]
fn entries_without_a_record_are_a_table_or_none() {
    let (record, keys, weights) = two_and_three();
    let table = Table::from_entries(keys, weights).unwrap();
    assert_eq!((table.record(), table.room()), (record, 2));
    let empty = Table::from_entries(Vec::new(), Vec::new()).unwrap();
    assert_eq!((empty.record(), empty.average()), (Record::default(), None));
    let most = Table::from_entries(vec![16_777_215], vec![16_777_216]).unwrap();
    assert_eq!(most.record(), Record::new(1, 16_777_216, [4_278_190_080; 3]));
    assert_eq!(most.average(), Some([255; 3]));
    let many = Table::MOST_ENTRIES as u32;
    let cases: [(Vec<u32>, Vec<u32>); 9] = [
        (vec![1, 2], vec![1]),
        (vec![1], vec![1, 2]),
        (vec![], vec![1]),
        (vec![2, 1], vec![1, 1]),
        (vec![16_777_216], vec![1]),
        (vec![1, 2], vec![1, 0]),
        (vec![7], vec![16_777_217]),
        (vec![u32::MAX; many as usize], vec![u32::MAX; many as usize]),
        ((0..=many).collect(), vec![1; many as usize + 1]),
    ];
    for (keys, weights) in cases {
        let told = format!("{:?} {:?}", keys.first(), weights.first());
        assert_eq!(Table::from_entries(keys, weights).unwrap_err(), Refusal::BadTable, "{told}");
    }
    assert_eq!(Table::from_entries((0..many).collect(), vec![16; many as usize]).unwrap().pixels(), 16_777_216);
}

#[test]
fn full_by_room_holds_the_pixels_taken() {
    let mut table = Table::with_room(2);
    let strip = [9, 9, 9, 1, 1, 1, 9, 9, 9, 5, 5, 5, 9, 9, 9];
    assert_eq!(table.add(&strip), Err(Refusal::Full { taken: 3 }));
    let mut taken = Table::with_room(2);
    assert_eq!(taken.add(&strip[..9]), Ok(3));
    assert_eq!(table.record(), Record::new(2, 3, [19; 3]));
    assert_eq!(table.record(), taken.record());
    assert!(table.entries().eq(taken.entries()));
    assert_eq!(table.add(&[1, 1, 1]), Ok(1));
    assert_eq!(table.weights(), [2, 2]);
}

#[test]
fn full_by_pixels() {
    let most = Table::MOST_PIXELS;
    let sum = 255 * (most - 1);
    let record = Record::new(1, most - 1, [sum; 3]);
    let mut table = Table::from_parts(record, vec![16_777_215, 0], vec![16_777_215, 0]).unwrap();
    assert_eq!(table.add(&[255; 9]), Err(Refusal::Full { taken: 1 }));
    assert_eq!((table.pixels(), table.weights()), (most, [16_777_216].as_slice()));
    assert_eq!(table.record(), Record::new(1, most, [4_278_190_080; 3]));
    assert_eq!(table.add(&[]), Ok(0));
    assert_eq!(table.average(), Some([255; 3]));
}

#[test]
fn full_table_of_most_entries() {
    let colours = (0..=Table::MOST_ENTRIES as u32).flat_map(|key| key.to_be_bytes()[1..].to_vec());
    let strip: Vec<u8> = colours.collect();
    let mut table = Table::with_room(usize::MAX);
    assert_eq!(table.add(&strip), Err(Refusal::Full { taken: 1_048_576 }));
    assert_eq!(table.used(), Table::MOST_ENTRIES);
    assert!(table.keys().iter().copied().eq(0..1_048_576));
}

#[test]
fn bad_count_few_colours_bad_limit_in_their_order() {
    let table = two_colours();
    assert_eq!(table.run(RunOptions::shades(0)), Err(Refusal::BadCount));
    assert_eq!(table.run(RunOptions::shades(65).limit(201)), Err(Refusal::BadCount));
    assert_eq!(table.run(RunOptions::shades(usize::MAX)), Err(Refusal::BadCount));
    assert_eq!(table.run(RunOptions::shades(64).limit(201)), Err(Refusal::FewColours));
    assert_eq!(table.run(RunOptions::shades(3)), Err(Refusal::FewColours));
    assert_eq!(table.run(RunOptions::shades(2).limit(201)), Err(Refusal::BadLimit));
    assert_eq!(table.run(RunOptions::shades(2).limit(usize::MAX)), Err(Refusal::BadLimit));
    assert!(table.run(RunOptions::shades(2).limit(200)).is_ok());
}

#[test]
fn short_room_by_the_totals_lent_to_a_run() {
    let table = two_colours();
    let run = |limit: usize, lent: usize| {
        let (mut members, mut totals) = ([8; 3], vec![5; lent]);
        let ran = calls::run(table.record(), table.keys(), table.weights(), 2, limit, &mut members, &mut totals);
        (ran.map(|ran| (ran.rounds, ran.settled)), members, totals)
    };
    for (limit, lent) in [(0, 0), (0, 20), (0, 99), (20, 19), (200, 199)] {
        assert_eq!(run(limit, lent), (Err(Refusal::ShortRoom), [8; 3], vec![5; lent]), "{lent} totals for {limit}");
    }
    for (limit, lent) in [(0, RunOptions::USUAL_LIMIT), (0, 100), (20, 20), (20, 99), (200, 200)] {
        let (ran, members, totals) = run(limit, lent);
        assert_eq!((ran, members), (Ok((2, true)), [1, 0, 8]), "{lent} totals for {limit}");
        assert_eq!((totals.len(), &totals[2..]), (lent, &vec![5; lent - 2][..]));
    }
}

#[test]
fn shades_that_are_none() {
    assert_eq!(Shades::from_coordinates(&[]), Err(Refusal::BadCount));
    assert_eq!(Shades::from_coordinates(&[0; 4]), Err(Refusal::BadCount));
    assert_eq!(Shades::from_coordinates(&[5000; 195]), Err(Refusal::BadCount));
    assert_eq!(Shades::from_coordinates(&[0, 4081, 0]), Err(Refusal::BadCentre));
    assert_eq!(Shades::from_coordinates(&[4080; 192]).unwrap().count(), Shades::MOST);
}

#[test]
fn short_room_and_bad_member_in_a_round() {
    let table = two_colours();
    let mut shades = Shades::from_coordinates(&[0, 0, 0, 80, 0, 0]).unwrap();
    let before = shades.clone();
    assert_eq!(table.plain_round(&mut shades, &mut [0]), Err(Refusal::ShortRoom));
    assert_eq!(table.short_round(&mut shades, &mut [9]), Err(Refusal::ShortRoom));
    let mut members = [0, 2];
    assert_eq!(table.short_round(&mut shades, &mut members), Err(Refusal::BadMember));
    assert_eq!((&shades, members), (&before, [0, 2]));
    assert!(table.plain_round(&mut shades, &mut members).is_ok());
    assert_eq!(members, [0, 1]);
}

#[test]
fn palettes_that_are_none() {
    for length in [0, 2, 4, 191, 193, 195] {
        assert_eq!(Palette::from_bytes(&vec![0; length]), Err(Refusal::BadPalette), "{length}");
    }
    assert_eq!(Palette::from_bytes(&[7; 192]).unwrap().count(), 64);
}

#[test]
fn many_pixels_and_short_room_in_mapping() {
    let palette = Palette::from_bytes(&[1, 2, 3]).unwrap();
    assert_eq!(palette.map(&vec![0; 3 * 16_777_217]), Err(Refusal::ManyPixels));
    let mut index = [8; 3];
    assert_eq!(palette.map_into(&[0; 6], &mut index, 2), Err(Refusal::ShortRoom));
    assert_eq!(palette.map_into(&[0; 6], &mut index, usize::MAX), Err(Refusal::ShortRoom));
    assert_eq!(palette.map_into(&[], &mut index, 4), Err(Refusal::ShortRoom));
    assert_eq!(index, [8; 3]);
    assert!(palette.map_into(&[], &mut index, 3).is_ok());
}

#[test]
fn pictures_that_are_none() {
    let cases: [(&[u8], Refusal); 12] = [
        (b"", Refusal::BadHeader { offset: 0 }),
        (b"P5 1 1 255 abc", Refusal::BadHeader { offset: 1 }),
        (b"P62", Refusal::BadHeader { offset: 2 }),
        (b"P6 000002 1 255 ", Refusal::BadHeader { offset: 8 }),
        (b"P6 0 1 255", Refusal::BadHeader { offset: 10 }),
        (b"P6 # comment", Refusal::BadHeader { offset: 12 }),
        (b"P6 0 1 255 ", Refusal::BadSize),
        (b"P6 16384 1025 254 ", Refusal::BadSize),
        (b"P6 1 1 254 abc", Refusal::BadDepth),
        (b"P6 1 1 65535 abcdef", Refusal::BadDepth),
        (b"P6 2 1 255 abcde", Refusal::BadRaster),
        (b"P6 2 1 255 abcdef\n", Refusal::BadRaster),
    ];
    for (input, refusal) in cases {
        assert_eq!(Picture::read(input), Err(refusal), "{}", String::from_utf8_lossy(input));
    }
}
