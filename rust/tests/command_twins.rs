//! Two shades that come out equal: the command says which, and writes nothing.
mod program;

use program::{printed, run, said, shade_lines, Folder, OUTPUTS};

/// Five pixels of close colours. Of four shades two come to (1,2,2).
const FIVE: &[u8] = b"P6 5 1 255\n\0\x01\0\x01\x01\x02\x01\x02\x01\x01\x02\x02\x02\0\x01";

/// What is said of them.
const TOLD: &str = "refused 18 TWIN SHADE: of 4 shades, 0 and 3 come out equal, both 1 2 2 #010202, and would be one \
                    yarn; ask for fewer shades\n";

/// Close colours and one far from them, 25 pixels. Of six shades two come out equal.
fn close_and_far() -> Vec<u8> {
    let colours = [
        (2, [0, 2, 1]),
        (3, [1, 1, 3]),
        (3, [1, 2, 2]),
        (3, [2, 0, 2]),
        (3, [2, 1, 3]),
        (1, [3, 2, 0]),
        (1, [3, 2, 3]),
        (9, [200, 255, 200]),
    ];
    let raster = colours.iter().flat_map(|(pixels, levels)| levels.repeat(*pixels));
    b"P6 5 5 255\n".iter().copied().chain(raster).collect()
}

#[test]
fn twins_are_told_by_number_and_colour() {
    let folder = Folder::new("twins");
    let path = folder.write("five.ppm", FIVE);
    let output = run(&["shades", "4", &path], b"");
    assert_eq!((printed(&output), output.status.code()), ("", Some(18)));
    assert_eq!(said(&output), format!("kohlenfloh: {path}: {TOLD}"));
}

#[test]
fn no_file_is_touched_and_none_is_made() {
    let folder = Folder::new("twins-files");
    let mut arguments = vec!["shades".to_string(), "4".into(), "--csv".into(), folder.path("order.csv")];
    arguments.extend(folder.all_outputs());
    let output = run(&arguments, FIVE);
    assert_eq!((printed(&output), output.status.code()), ("", Some(18)));
    assert!(folder.names().is_empty(), "{:?}", folder.names());

    OUTPUTS.iter().for_each(|(_, name)| drop(folder.write(name, b"former")));
    let output = run(&arguments, FIVE);
    assert_eq!((said(&output), output.status.code()), (&*format!("kohlenfloh: standard input: {TOLD}"), Some(18)));
    assert_eq!(folder.names(), OUTPUTS.map(|(_, name)| name));
    assert!(OUTPUTS.iter().all(|(_, name)| folder.read(name) == b"former"));
}

#[test]
fn fewer_shades_are_listed_each_with_a_colour_of_its_own() {
    for (count, hexes) in [
        ("3", ["#010202", "#000100", "#020001"].as_slice()),
        ("5", &["#010201", "#000100", "#020001", "#010202", "#010102"]),
    ] {
        let output = run(&["shades", count], FIVE);
        assert_eq!((said(&output), output.status.code()), ("", Some(0)));
        let told = shade_lines(printed(&output)).map(|line| line.split_whitespace().nth(4).unwrap());
        assert!(told.eq(hexes.iter().copied()), "{}", printed(&output));
    }
}

#[test]
fn in_use_passes_over_a_count_with_twins() {
    let picture = close_and_far();
    let output = run(&["shades", "6"], &picture);
    assert_eq!((printed(&output), output.status.code()), ("", Some(18)));
    let told = "refused 18 TWIN SHADE: of 6 shades, 3 and 5 come out equal, both 2 1 3 #020103, and would be one";
    assert_eq!(said(&output), format!("kohlenfloh: standard input: {told} yarn; ask for fewer shades\n"));
    let output = run(&["shades", "--in-use", "6"], &picture);
    let words = "\nshades             6 of 7 shades in use; 7 is the smallest count that uses 6\n";
    assert!(printed(&output).contains(words), "{}{}", printed(&output), said(&output));

    for (picture, wanted, told) in [
        (FIVE, "4", "from 4 to 5 gives a picture that uses exactly 4 of them; of 5 it uses 5; of 4 two come out equal"),
        (
            &picture,
            "5",
            "from 5 to 8 gives a picture that uses exactly 5 of them; of 5 it uses 4; of 7 it uses 6; of 6 two come \
             out equal",
        ),
    ] {
        let output = run(&["shades", "--in-use", wanted], picture);
        assert_eq!((printed(&output), output.status.code()), ("", Some(65)));
        assert_eq!(said(&output), format!("kohlenfloh: standard input: no count of shades {told}\n"));
    }
}

#[test]
fn the_help_tells_of_them() {
    let output = run(&["--help"], b"");
    let help: Vec<&str> = printed(&output).split_whitespace().collect();
    let help = help.join(" ");
    assert!(help.contains("18 TWIN SHADE: two shades come out equal; the message says which 64 "), "{help}");
    assert!(help.contains("two shades can come out equal. A sheet has no two lines of one colour"), "{help}");
    assert!(help.contains("a run is made for each count, and one that leaves two equal shades is passed over"));
}
