//! The order sheet as a drawing: what it says, the picture in it, and that it can be read and printed.
mod program;
mod tools;

use std::fs;
use std::path::Path;

use kohlenfloh::made;
use program::{printed, run, said, Folder, RUG};
use tools::{installed, shell};

/// The drawing of a picture's shades, and the sheet in words beside it.
fn drawing(folder: &Folder, arguments: &[&str], input: &[u8]) -> (String, String) {
    let path = folder.path("sheet.svg");
    let output = run(&[&["shades", "--sheet", &path], arguments].concat(), input);
    assert_eq!(output.status.code(), Some(0), "{}", said(&output));
    (String::from_utf8(folder.read("sheet.svg")).unwrap(), printed(&output).into())
}

/// What stands in each text of a drawing.
fn texts(drawing: &str) -> Vec<&str> {
    let begins = drawing.split("<text ").skip(1);
    begins.map(|text| text.split_once('>').unwrap().1.split_once("</text>").unwrap().0).collect()
}

/// What stands in quotes after a name and `=`, where it is met first.
fn attribute<'a>(drawing: &'a str, name: &str) -> &'a str {
    drawing.split_once(&format!("{name}=\"")).unwrap().1.split_once('"').unwrap().0
}

/// A picture of so many colours in a row, each of one pixel.
fn colours(width: usize, height: usize) -> Vec<u8> {
    let raster = (0..width * height).flat_map(|place| [place as u8, (place / 256) as u8, (place / 7) as u8]);
    format!("P6 {width} {height} 255\n").bytes().chain(raster).collect()
}

/// A drawing's picture as a P6 picture, by pngtopnm.
fn picture(folder: &Folder, drawing: &str) -> Vec<u8> {
    folder.write("address", attribute(drawing, "xlink:href").as_bytes());
    let line = "sed 's/^data:image.png;base64,//' address | base64 -d | pngtopnm | ppmtoppm";
    shell(Path::new(&folder.path(".")), line).stdout
}

#[test]
fn the_drawing_tells_what_the_sheet_tells() {
    let folder = Folder::new("drawing");
    let rug = folder.write("a<b>&'\".ppm", &fs::read(RUG).unwrap());
    let (drawing, sheet) = drawing(&folder, &["7", &rug], b"");
    assert!(drawing.contains("<title>Order sheet: a&lt;b&gt;&amp;&apos;&quot;.ppm</title>"));
    let texts = texts(&drawing);
    assert_eq!(texts[1], "a&lt;b&gt;&amp;&apos;&quot;.ppm");
    assert_eq!(texts[2..8], ["Size", "64 by 96", "Pixels", "6,144", "Colours", "42"]);
    assert_eq!(texts[8..13], ["Average colour", "#6c5145", "108, 81, 69", "Shades", "6 of 7 shades in use"]);
    assert_eq!(texts[13..19], ["Rounds", "2, settled", "Error", "86,391", "Mean square error", "14.06"]);
    assert_eq!(texts[25..29], ["0", "#6c5145", "108, 81, 69", "not used, buy nothing"]);
    for (row, line) in texts[29..].chunks(5).zip(sheet.lines().skip(14).take(6)) {
        let line: Vec<&str> = line.split_whitespace().collect();
        let [number, red, green, blue, hex, pixels, share] = line[..] else { panic!("{line:?}") };
        let levels = format!("{red}, {green}, {blue}");
        assert_eq!(row[..3], [number, hex, &levels]);
        assert_eq!((row[3].replace(',', ""), row[4]), (pixels.into(), format!("{share} %").as_str()));
        assert!(drawing.contains(&format!("fill=\"{hex}\"")));
    }
    let [.., sum, _, origin] = texts[..] else { panic!("{texts:?}") };
    assert_eq!(sum, "All shades: <tspan font-weight=\"bold\">6,144</tspan>, the pixels of the picture");
    let (version, toolchain, proof, sources) = (made::VERSION, made::TOOLCHAIN, made::PROOF, &made::SOURCES[..16]);
    assert_eq!(origin, format!("kohlenfloh {version}, {toolchain}, proof {proof}, sources {sources}"));
}

#[test]
fn the_average_colour_has_a_swatch() {
    let folder = Folder::new("average");
    // Two pixels whose mean is at a half in each channel, and no shade of that colour.
    let (drawing, sheet) = drawing(&folder, &["2"], b"P6 2 1 255 \x10\x80\0\x11\xff\x01");
    assert!(sheet.contains("\naverage colour     17  192  1  #11c001\n"), "{sheet}");
    let (_, row) = drawing.split_once(">Average colour</text>").unwrap();
    let (row, _) = row.split_once("</g>").unwrap();
    assert_eq!(attribute(row, " fill"), "#11c001");
    assert!(row.trim_start().starts_with("<rect ") && drawing.matches("fill=\"#11c001\"").count() == 1, "{row}");
    assert_eq!(texts(row), ["#11c001", "17, 192, 1"]);
}

#[test]
fn small_shares_and_more_rounds_are_told() {
    let folder = Folder::new("small");
    let (one, _) = drawing(&folder, &["64", "--limit", "1"], &colours(200, 100));
    let rounds = texts(&one).into_iter().find(|text| text.starts_with("1, not settled<tspan")).unwrap();
    assert!(rounds.ends_with(">more rounds may lower the error: ask for them by --limit 200</tspan>"), "{rounds}");
    let mut picture = b"P6 200 100 255\n".to_vec();
    picture.resize(picture.len() + 3 * 19_999, 0);
    picture.extend([255, 255, 255]);
    let (small, _) = drawing(&folder, &["2"], &picture);
    assert!(texts(&small).contains(&"&lt; 0.01 %"));
}

#[test]
fn any_number_of_shades_is_a_page_at_most() {
    let folder = Folder::new("page");
    for count in (1..=64).map(|count: usize| count.to_string()) {
        let (drawing, _) = drawing(&folder, &[&count], &colours(10, 10));
        assert_eq!(attribute(&drawing, " width"), "210mm");
        let height = attribute(&drawing, " height").strip_suffix("mm").unwrap();
        assert!(height.parse::<f64>().unwrap() <= 297.0, "{count} shades are {height} mm high");
    }
}

#[test]
fn the_picture_in_the_drawing_is_the_preview() {
    if installed(&["base64 | pngtopnm | ppmtoppm | pamenlarge"]) {
        let folder = Folder::new("picture");
        let (rug, _) = drawing(&folder, &["7", RUG, "--preview", &folder.path("preview.ppm")], b"");
        let preview = shell(Path::new(&folder.path(".")), "pamenlarge 3 preview.ppm").stdout;
        assert_eq!(picture(&folder, &rug), preview);
    }
}

#[test]
fn a_large_picture_is_made_small_and_a_thin_one_stays_seen() {
    if installed(&["base64 | pngtopnm | ppmtoppm"]) {
        let folder = Folder::new("large");
        for (width, height, small) in
            [(640, 480, "320 240"), (300, 900, "106 320"), (16384, 1, "320 1"), (1, 16384, "1 320"), (1, 1, "4 4")]
        {
            let (drawing, _) = drawing(&folder, &["1"], &colours(width, height));
            assert!(picture(&folder, &drawing).starts_with(format!("P6\n{small}\n255\n").as_bytes()), "{small}");
            let image = drawing.split_once("<image").unwrap().1;
            let sides = ["width", "height"].map(|name| attribute(image, name).parse::<usize>().unwrap());
            assert!(sides.iter().all(|side| (4..=320).contains(side)), "{sides:?}");
        }
    }
}

#[test]
fn the_drawing_is_xml_and_can_be_rendered() {
    let folder = Folder::new("xml");
    let name = folder.write("<&>\"'\u{1}\u{fffe}…絨毯.ppm", &colours(64, 64));
    for count in ["1", "6", "16", "17", "64"] {
        drawing(&folder, &[count, &name], b"");
        for reader in
            ["python3 -c 'import xml.etree.ElementTree as tree; tree.parse(\"sheet.svg\")'", "rsvg-convert sheet.svg"]
        {
            if installed(&[reader]) {
                let read = shell(Path::new(&folder.path(".")), reader);
                assert!(read.status.success(), "{count} shades, {reader}: {}", String::from_utf8_lossy(&read.stderr));
            }
        }
    }
}
