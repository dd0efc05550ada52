//! `--jancey`: the run by Jancey's rule, on every output, and beside what the other options ask for.
mod program;

use std::fs;

use kohlenfloh::{Picture, RunOptions, Table};
use program::{assert_wrong, printed, run, said, shade_lines, Folder, RUG};

/// Two pixels, whose two shades are the same by either rule: found in 2 rounds, and by Jancey's rule in 18.
const SMALL: &[u8] = b"P6 2 1 255\n\0\0\0\x0a\0\0";

/// What the program prints for some arguments, on these two pixels.
fn small(arguments: &[&str]) -> String {
    let output = run(&[["shades", "2"].as_slice(), arguments].concat(), SMALL);
    assert_eq!((said(&output), output.status.code()), ("", Some(0)), "{arguments:?}");
    printed(&output).into()
}

/// What is asked for of the rug, as its sheet.
fn rug(arguments: &[&str]) -> String {
    let output = run(&[["shades"].as_slice(), arguments, &[RUG]].concat(), b"");
    assert_eq!((said(&output), output.status.code()), ("", Some(0)), "{arguments:?}");
    printed(&output).into()
}

#[test]
fn the_sheet_says_how_its_shades_were_found() {
    let plain = small(&[]);
    assert!(plain.contains("\nrounds             2\nsettled            yes\n"));
    let by_rule = plain.replace("rounds             2\n", "rounds             18, by Jancey's rule\n");
    for arguments in [["--jancey"].as_slice(), &["--jancey", "-"], &["--limit", "18", "--jancey"]] {
        assert_eq!(small(arguments), by_rule);
    }
    let limited = small(&["--jancey", "--limit=3"]);
    let words =
        "\nrounds             3, by Jancey's rule\nsettled            no: more rounds may lower the error, ask for";
    assert!(limited.contains(words), "{limited}");
}

#[test]
fn the_drawing_says_so_too() {
    let plain = small(&["--sheet", "-"]);
    assert!(plain.contains(">2, settled</text>"));
    assert_eq!(small(&["--sheet", "-", "--jancey"]), plain.replace(">2, settled<", ">18, by Jancey's rule, settled<"));
    assert!(small(&["--sheet=-", "--jancey", "--limit", "3"]).contains(">3, by Jancey's rule, not settled<tspan "));
}

#[test]
fn the_object_says_so_and_the_table_does_not() {
    let plain = small(&["--json", "-"]);
    assert!(plain.contains("\n  \"limit\": 100,\n  \"jancey\": false,\n  \"rounds\": 2,\n"), "{plain}");
    let by_rule = small(&["--jancey", "--json", "-"]);
    assert!(by_rule.contains("\n  \"limit\": 100,\n  \"jancey\": true,\n  \"rounds\": 18,\n"), "{by_rule}");
    assert!(by_rule.contains("\n  \"distances\": 38,\n  \"final_total\": 0,\n"), "{by_rule}");
    assert_eq!(small(&["--csv", "-"]), small(&["--csv", "-", "--jancey"]));
}

#[test]
fn the_shades_are_those_of_the_library() {
    let folder = Folder::new("jancey");
    let bytes = fs::read(RUG).unwrap();
    let raster = Picture::read(&bytes).unwrap().raster();
    let mut table = Table::with_room(64);
    table.add(raster).unwrap();
    for (count, limit) in [(6, 0), (7, 0), (20, 2), (20, 200)] {
        let found = table.run_jancey(RunOptions::shades(count).limit(limit)).unwrap();
        let palette = table.palette_from_groups(&found.shades, &found.members).unwrap();
        let mapped = palette.map(raster).unwrap();
        let index = folder.path("index.pgm");
        let (count, limit) = (count.to_string(), limit.to_string());
        let sheet = rug(&[&count, "--jancey", "--index", &index, "--limit", &limit]);
        assert!(sheet.contains(&format!("\nrounds             {}, by Jancey's rule\n", found.rounds)), "{sheet}");
        assert!(sheet.contains(&format!("\nerror              {}\n", mapped.figures.error)), "{sheet}");
        assert!(folder.read("index.pgm") == [b"P5\n64 96\n255\n".as_slice(), &mapped.index].concat());
        let levels = shade_lines(&sheet).map(|line| line.split_whitespace().skip(1).take(3).map(str::parse::<u8>));
        assert!(levels.flatten().map(Result::unwrap).eq(palette.bytes().iter().copied()), "{sheet}");
    }
}

#[test]
fn it_goes_with_a_number_of_shades_in_use() {
    let in_use = |sheet: &str| shade_lines(sheet).filter(|line| !line.contains("not used")).count();
    for wanted in [2, 6, 7, 12] {
        let (count, plain) = (wanted..=42)
            .map(|count| (count, rug(&[&count.to_string(), "--jancey"])))
            .find(|(_, sheet)| in_use(sheet) == wanted)
            .unwrap();
        let words = format!("{wanted} of {count} shades in use");
        let told = format!("{words}; {count} is the smallest count that uses {wanted}");
        assert!(plain.contains(", by Jancey's rule\n"));
        assert_eq!(rug(&["--jancey", "--in-use", &wanted.to_string()]), plain.replace(&words, &told));
    }
}

#[test]
fn what_the_library_refuses_it_refuses_here_too() {
    for (arguments, status, words) in [
        (["65", "--jancey"].as_slice(), 4, "refused 4 BAD COUNT: 65 shades are wanted"),
        (&["3", "--jancey"], 5, "refused 5 FEW COLOURS: 3 shades are wanted, and the picture has 2 colours"),
        (&["2", "--jancey", "--limit", "201"], 6, "refused 6 BAD LIMIT: a limit of 201 rounds is wanted"),
        (&["--jancey", "--in-use", "3"], 5, "refused 5 FEW COLOURS: 3 shades are wanted"),
    ] {
        let output = run(&[["shades"].as_slice(), arguments].concat(), SMALL);
        assert_eq!((printed(&output), output.status.code()), ("", Some(status)));
        assert!(said(&output).contains(words), "{}", said(&output));
    }
    let output = run(&["shades", "6", "--jancey"], b"P5 1 1 255 a");
    assert!(said(&output).ends_with(" | kohlenfloh shades 6 --jancey\n"), "{}", said(&output));
}

#[test]
fn it_takes_no_value_and_stands_once() {
    for (arguments, words) in [
        (["shades", "6", "--jancey=x"].as_slice(), "--jancey takes no value"),
        (&["shades", "6", "--jancey="], "--jancey takes no value"),
        (&["shades", "6", "--jancey", "--jancey"], "--jancey is given twice"),
        (&["shades", "--jancey", RUG], "K, the number of shades, is not a whole number: "),
        (&["--jancey"], "there is no command --jancey"),
        (
            &["shades", "6", "--sheet", "--jancey"],
            "--sheet wants the name of a file, and --jancey is an option; write --sheet=--jancey if it is a file",
        ),
    ] {
        let words = if words.ends_with(": ") { format!("{words}{RUG}") } else { words.into() };
        assert_wrong(arguments, &words);
    }
    let output = run(&["shades", "2", "--", "--jancey"], b"");
    assert!(said(&output).starts_with("kohlenfloh: cannot read --jancey: "), "{}", said(&output));
}
