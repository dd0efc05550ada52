//! `--in-use`: the smallest count of shades whose picture uses as many as are wanted.
mod program;

use std::fs;

use program::{assert_wrong, printed, run, said, shade_lines, RUG};

/// A drawing of three flat colours, which as three shades come out as two.
fn three_colours() -> Vec<u8> {
    let pixels = [([0, 0, 0], 10), ([40, 0, 0], 10), ([255, 255, 255], 44)];
    let raster = pixels.iter().flat_map(|(levels, times)| levels.repeat(*times));
    b"P6 8 8 255\n".iter().copied().chain(raster).collect()
}

/// The sheet of the rug for so many shades.
fn plain(count: usize) -> String {
    printed(&run(&["shades", &count.to_string(), RUG], b"")).into()
}

/// How many shades the sheet of the rug for so many counts as used, by its lines.
fn used(count: usize) -> usize {
    shade_lines(&plain(count)).filter(|line| !line.contains("not used")).count()
}

#[test]
fn the_smallest_count_that_uses_so_many_is_taken() {
    for wanted in [1, 2, 6, 7, 12, 20] {
        let count = (wanted..=64).find(|count| used(*count) == wanted).unwrap();
        let output = run(&["shades", RUG, "--in-use", &wanted.to_string()], b"");
        assert_eq!((said(&output), output.status.code()), ("", Some(0)));
        let words = format!("{wanted} of {count} shades in use");
        let told = format!("{words}; {count} is the smallest count that uses {wanted}");
        assert_eq!(printed(&output), plain(count).replace(&words, &told));
    }
    assert!(used(7) == 6 && used(8) == 7, "the rug shows that a count is passed over");
}

#[test]
fn the_limit_and_standard_input_go_with_it() {
    let rug = fs::read(RUG).unwrap();
    for arguments in [["--in-use", "7", "--limit", "1"].as_slice(), &["-", "--limit=1", "--in-use=7"]] {
        let output = run(&[["shades"].as_slice(), arguments].concat(), &rug);
        assert!(printed(&output).contains("\nshades             7 of 8 shades in use; 8 is the smallest count"));
        assert!(printed(&output).contains("\nrounds             1\n"), "{}", printed(&output));
    }
    let output = run(&["shades", "--in-use", "7", "--json", "-"], &rug);
    assert!(printed(&output).contains("\n  \"shades\": 8,\n  \"in_use\": 7,\n  \"wanted_in_use\": 7,\n"));
}

#[test]
fn where_no_count_is_right_it_says_so() {
    let output = run(&["shades", "--in-use", "3"], &three_colours());
    assert_eq!((printed(&output), output.status.code()), ("", Some(65)));
    let told = "no count of shades from 3 to 3 gives a picture that uses exactly 3 of them; of 3 it uses 2";
    assert_eq!(said(&output), format!("kohlenfloh: standard input: {told}\n"));
}

#[test]
fn what_the_library_refuses_it_refuses_here_too() {
    for (wanted, status, words) in [
        ("0", 4, "refused 4 BAD COUNT: 0 shades are wanted"),
        ("65", 4, "refused 4 BAD COUNT: 65 shades are wanted"),
        ("99999999999999999999999999", 4, "refused 4 BAD COUNT: 99999999999999999999999999 shades are wanted"),
        ("43", 5, "refused 5 FEW COLOURS: 43 shades are wanted, and the picture has 42 colours; ask for 42 at most"),
    ] {
        let output = run(&["shades", "--in-use", wanted, RUG], b"");
        assert_eq!((printed(&output), output.status.code()), ("", Some(status)));
        assert!(said(&output).contains(words), "{}", said(&output));
    }
    let output = run(&["shades", "--in-use", "6"], b"P5 1 1 255 a");
    assert_eq!(output.status.code(), Some(12));
    assert!(said(&output).contains(" | kohlenfloh shades --in-use 6\n"), "{}", said(&output));
}

#[test]
fn it_stands_for_the_count() {
    for (arguments, words) in [
        (["shades", "6", RUG, "--in-use", "6"].as_slice(), "K and --in-use cannot both be given"),
        (&["shades", RUG, "two.ppm", "--in-use", "6"], "one picture is read, and two.ppm is one too many"),
        (&["shades", RUG, "--in-use", "six"], "--in-use wants a whole number of shades"),
        (&["shades", RUG, "--in-use", "6", "--in-use=6"], "--in-use is given twice"),
        (
            &["shades", RUG, "--sheet", "--in-use", "6"],
            "--sheet wants the name of a file, and --in-use is an option; write --sheet=--in-use if it is a file",
        ),
    ] {
        assert_wrong(arguments, words);
    }
}
