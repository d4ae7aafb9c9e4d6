//! Tries the crate beside the program tt_render, which TT_RENDER names. TT_FONT names the font, DejaVu Sans.
use std::env;
use std::io::Write;
use std::process::{Command, Stdio};
use tt_render::{faces, supported, Align, Error, Fit, Font, Job, LabelJob};

fn font_path() -> String {
    env::var("TT_FONT").expect("TT_FONT names a font")
}

fn font_bytes() -> Vec<u8> {
    std::fs::read(font_path()).expect("the font is there")
}

/// What the program prints.
fn printed(words: &[&str], stdin: &str) -> Vec<u8> {
    let program = env::var("TT_RENDER").expect("TT_RENDER names the program");
    let mut ran = Command::new(program)
        .args(words)
        .stdin(Stdio::piped())
        .stdout(Stdio::piped())
        .spawn()
        .unwrap();
    ran.stdin
        .take()
        .unwrap()
        .write_all(stdin.as_bytes())
        .unwrap();
    ran.wait_with_output().unwrap().stdout
}

/// A request of a size, with some fields changed.
fn changed(size: u32, change: impl FnOnce(&mut Job)) -> Job {
    let mut job = Job::of_size(size);
    change(&mut job);
    job
}

/// A collection of two faces, which both are the font.
fn collection(font: &[u8]) -> Vec<u8> {
    let mut made = b"ttcf\0\x01\0\0\0\0\0\x02\0\0\0\x14\0\0\0\x14".to_vec();
    made.extend_from_slice(font);
    for table in 0..usize::from(u16::from_be_bytes([font[4], font[5]])) {
        let at = 20 + 12 + 16 * table + 8;
        let place: [u8; 4] = made[at..at + 4].try_into().unwrap();
        made[at..at + 4].copy_from_slice(&(u32::from_be_bytes(place) + 20).to_be_bytes());
    }
    made
}

#[test]
fn lines_of_text_are_those_of_the_program() {
    let (path, bytes) = (font_path(), font_bytes());
    let font = Font::new(&bytes).unwrap();
    for text in ["Shelf 12", "Ǻjf", "j"] {
        for size in ["9", "16", "300"] {
            let wanted = printed(
                &[
                    "draw", "--size", size, "--fit", "best", "--grow", &path, text,
                ],
                "",
            );
            let job = Job::of_size(size.parse().unwrap());
            assert_eq!(font.draw(text, &job).unwrap().pbm(), wanted);
        }
    }
}

#[test]
fn labels_are_those_of_the_program() {
    let (path, bytes) = (font_path(), font_bytes());
    let font = Font::new(&bytes).unwrap();
    for text in [
        "Shelf 12",
        "Ǻjf\nj",
        "",
        "A\r\n\nWide\n",
        "e\u{301} A\u{30a}",
    ] {
        for size in ["9", "16", "300"] {
            let label = font.label(text, size.parse().unwrap()).unwrap();
            let wanted = printed(&["label", "--size", size, &path, text], "");
            assert_eq!(label.picture.pbm(), wanted);
            assert_eq!((label.cut_left, label.cut_right), (0, 0));
            assert_eq!(label.size.to_string(), size);
        }
    }
    for (align, name) in [
        (Align::Left, "left"),
        (Align::Centre, "centre"),
        (Align::Right, "right"),
    ] {
        let mut job = LabelJob::of_size(20);
        job.margin = 3;
        job.fit = Fit::None;
        job.kern = true;
        job.rounded = true;
        job.align = align;
        let words = [
            "label",
            "--size",
            "20",
            "--margin",
            "3",
            "--fit",
            "none",
            "--kern",
            "--height",
            "rounded",
            "--align",
            name,
            &path,
            "AV\nTo Wax",
        ];
        let label = font.draw_label("AV\nTo Wax", &job).unwrap();
        assert_eq!(label.picture.pbm(), printed(&words, ""));
    }
    assert_eq!(
        font.label("A\u{10ffff}\n\u{10ffff}", 16).unwrap().missing,
        1
    );
}

/// A font with weights from 100 to 900 and four named instances: that of tests/c/variable.txt.
fn variable() -> Vec<u8> {
    let text = include_str!("../../../tests/c/variable.txt");
    let digits = text
        .lines()
        .find_map(|it| it.strip_prefix("font "))
        .unwrap();
    (0..digits.len() / 2)
        .map(|it| u8::from_str_radix(&digits[2 * it..][..2], 16).unwrap())
        .collect()
}

#[test]
fn instances_are_listed() {
    let bytes = variable();
    let font = Font::new(&bytes).unwrap();
    let axes = font.axes().unwrap();
    assert_eq!(axes.len(), 1);
    assert_eq!(
        (
            axes[0].tag,
            axes[0].least,
            axes[0].default,
            axes[0].greatest
        ),
        (*b"wght", 100.0, 400.0, 900.0)
    );
    let listed = font.instances().unwrap();
    let wanted = [
        (0, 100.0, "Thin"),
        (1, 650.0, "Medium"),
        (2, 900.0, "Black & wide"),
        (3, 900.0, "Medium"),
    ];
    assert_eq!(listed.len(), wanted.len());
    for (got, (number, place, name)) in listed.iter().zip(wanted) {
        assert_eq!(
            (got.number, &got.places[..], &got.name[..]),
            (number, &[place][..], name)
        );
    }
    let other = font_bytes();
    let other = Font::new(&other).unwrap();
    assert!(other.axes().unwrap().is_empty() && other.instances().unwrap().is_empty());
    assert_eq!(other.at_instance(0).unwrap_err().number(), 3);
}

#[test]
fn instances_are_drawn() {
    let bytes = variable();
    let plain = Font::new(&bytes).unwrap();
    let medium = plain.at_instance(1).unwrap();
    for fit in [Fit::Full, Fit::None, Fit::Fallback, Fit::Best] {
        let job = changed(48, |it| it.fit = fit);
        let drawn = medium.draw("AB", &job).unwrap();
        let others = [
            plain.at_instance_named("Medium"),
            plain.with_axes(&[(*b"wght", 650.0)]),
            plain.with_axes(&[(*b"wght", 100.0), (*b"wght", 650.0)]),
            medium
                .at_instance(0)
                .unwrap()
                .with_axes(&[(*b"wght", 650.0)]),
        ];
        for other in others {
            assert_eq!(other.unwrap().draw("AB", &job).unwrap(), drawn);
        }
        assert_ne!(plain.draw("AB", &job).unwrap(), drawn);
        let default = plain.with_axes(&[(*b"wght", 400.0)]).unwrap();
        assert_eq!(
            default.draw("AB", &job).unwrap(),
            plain.draw("AB", &job).unwrap()
        );
    }
    let label = medium.label("A", 48).unwrap();
    assert_eq!(label.picture, medium.draw("A", &Job::of_size(48)).unwrap());
}

#[test]
fn instances_are_refused() {
    let bytes = variable();
    let font = Font::new(&bytes).unwrap();
    for number in [4, u32::MAX] {
        assert_eq!(font.at_instance(number).unwrap_err().number(), 28);
    }
    for name in ["Bold", ""] {
        assert_eq!(font.at_instance_named(name).unwrap_err().number(), 28);
    }
    let other = font.with_axes(&[(*b"wdth", 100.0)]).unwrap_err();
    assert_eq!((other.number(), other.table()), (27, Some(*b"fvar")));
    let many = font.with_axes(&[(*b"wght", 400.0); 17]).unwrap_err();
    assert_eq!((many.status(), many.number()), (2, 73));
    assert_eq!(many.to_string(), "73 AxesMany");
    assert!(font.with_axes(&[(*b"wght", 400.0); 16]).is_ok());
}

#[test]
fn labels_have_a_width() {
    let bytes = font_bytes();
    let font = Font::new(&bytes).unwrap();
    let room = font.layout("one two", &Job::of_size(16)).unwrap().width;
    let mut job = LabelJob::of_size(16);
    job.width = room;
    let (got, lines) = (
        font.draw_label("one two three", &job).unwrap().picture,
        font.label("one two\nthree", 16).unwrap().picture,
    );
    assert_eq!(
        (got.shape.width, got.shape.height),
        (room, lines.shape.height)
    );
    for row in 0..got.shape.height {
        assert!((0..room).all(|it| got.is_black(it, row) == lines.is_black(it, row)));
    }
    job.width = 5;
    let cut = font.draw_label("W", &job).unwrap();
    assert!(cut.cut_left == 0 && cut.cut_right > 0);
    job.align = Align::Right;
    let cut = font.draw_label("W", &job).unwrap();
    assert!(cut.cut_left > 0 && cut.cut_right == 0);
    job.margin = 3;
    let refused = font.draw_label("W", &job).unwrap_err();
    assert_eq!((refused.status(), refused.number()), (2, 69));
    job.width = 40;
    let words = [
        "label", "--size", "16", "--margin", "3", "--width", "40", "--align", "right",
    ];
    let path = font_path();
    let words = [&words[..], &[path.as_str(), "one two-three"]].concat();
    let picture = font.draw_label("one two-three", &job).unwrap().picture;
    assert_eq!(picture.pbm(), printed(&words, ""));
}

#[test]
fn labels_fill_a_box() {
    let (path, bytes) = (font_path(), font_bytes());
    let font = Font::new(&bytes).unwrap();
    let mut job = LabelJob::of_size(300);
    job.margin = 2;
    job.align = Align::Centre;
    job.box_size = Some((120, 45));
    for text in ["Shelf 12", "quick-brown fox, Ǻjf", "a\nb", ""] {
        let words = [
            "label", "--margin", "2", "--align", "centre", "--box", "120x45", &path, text,
        ];
        let label = font.draw_label(text, &job).unwrap();
        assert_eq!(label.picture.pbm(), printed(&words, ""));
        assert_eq!((label.cut_left, label.cut_right), (0, 0));
        job.size = label.size as u32;
        assert_eq!(font.draw_label(text, &job).unwrap(), label);
        job.size = 300;
    }
    for (sides, number) in [
        ((0, 0), 70),
        ((50, 0), 70),
        ((16385, 50), 70),
        ((50, 4), 70),
        ((5, 5), 71),
    ] {
        job.box_size = Some(sides);
        assert_eq!(font.draw_label("W", &job).unwrap_err().number(), number);
    }
    job.box_size = Some((50, 50));
    job.width = 50;
    assert_eq!(font.draw_label("W", &job).unwrap_err().number(), 70);
}

#[test]
fn options_are_those_of_the_program() {
    let (path, bytes) = (font_path(), font_bytes());
    let font = Font::new(&bytes).unwrap();
    for (fit, name) in [
        (Fit::Full, "full"),
        (Fit::None, "none"),
        (Fit::Fallback, "fallback"),
        (Fit::Best, "best"),
    ] {
        let job = changed(20, |it| {
            it.margin = 3;
            it.fit = fit;
            it.grow = false;
        });
        let wanted = printed(
            &[
                "draw", "--size", "20", "--margin", "3", "--fit", name, &path, "Hello",
            ],
            "",
        );
        assert_eq!(font.draw("Hello", &job).unwrap().pbm(), wanted);
    }
}

#[test]
fn kerning_and_heights_are_those_of_the_program() {
    let (path, bytes) = (font_path(), font_bytes());
    let font = Font::new(&bytes).unwrap();
    let text = "AVA To";
    for (fit, name) in [(Fit::None, "none"), (Fit::Best, "best")] {
        for (kern, rounded) in [(false, false), (true, false), (false, true), (true, true)] {
            let job = changed(24, |it| {
                it.fit = fit;
                it.grow = false;
                it.kern = kern;
                it.rounded = rounded;
            });
            let height = if rounded { "rounded" } else { "exact" };
            let mut words = vec!["draw", "--size", "24", "--fit", name, "--height", height];
            words.extend(["--kern"].iter().filter(|_| kern));
            words.extend([&*path, text]);
            let picture = font.draw(text, &job).unwrap();
            assert_eq!(picture.pbm(), printed(&words, ""));
            let (got, pens) = (
                font.layout(text, &job).unwrap(),
                font.pens(text, &job).unwrap(),
            );
            assert_eq!(
                (got.width, got.height, got.baseline),
                (
                    picture.shape.width,
                    picture.shape.height,
                    picture.shape.baseline
                )
            );
            let last = pens.last().unwrap();
            assert_eq!(last.pen + i64::from(last.advance), i64::from(got.width));
        }
    }
    let width = |kern| {
        let job = changed(24, |it| {
            it.kern = kern;
        });
        font.measure(text, &job).unwrap().width
    };
    assert!(width(true) < width(false));
}

#[test]
fn lines_are_those_of_the_program() {
    let (path, bytes) = (font_path(), font_bytes());
    let font = Font::new(&bytes).unwrap();
    for (size, count) in [(16, 4100), (300, 20)] {
        let texts: Vec<String> = (0..count).map(|it| format!("Shelf {it}")).collect();
        let texts: Vec<&str> = texts.iter().map(String::as_str).collect();
        let mut got = Vec::new();
        font.labels(&texts, &Job::of_size(size), |it| got.extend(it.pbm()))
            .unwrap();
        let words = [
            "draw",
            "--size",
            &size.to_string(),
            "--fit",
            "best",
            "--grow",
            "--lines",
            &path,
        ];
        assert!(
            got == printed(&words, &(texts.join("\n") + "\n")),
            "lines at {size}"
        );
    }
}

#[test]
fn a_refused_line_is_named() {
    let bytes = font_bytes();
    let font = Font::new(&bytes).unwrap();
    let mut drawn = 0;
    let refused = font
        .labels(&["A", "B", "", "C"], &Job::of_size(16), |_| drawn += 1)
        .unwrap_err();
    assert_eq!((drawn, refused.line(), refused.number()), (2, Some(2), 62));
}

#[test]
fn the_room_of_labels_is_that_of_their_rows() {
    let bytes = font_bytes();
    let font = Font::new(&bytes).unwrap();
    let texts = ["Shelf 12", "jolly", "A"];
    for job in [Job::of_size(9), changed(24, |it| it.margin = 2)] {
        let mut wanted = 0;
        font.labels(&texts, &job, |it| wanted += it.rows.len() as u64)
            .unwrap();
        assert_eq!(font.labels_room(&texts, &job).unwrap(), wanted);
    }
    assert_eq!(font.labels_room(&[], &Job::of_size(16)).unwrap(), 0);
    let refused = font
        .labels_room(&["A", "", "B"], &Job::of_size(16))
        .unwrap_err();
    assert_eq!((refused.number(), refused.line()), (62, Some(1)));
}

#[test]
fn a_blank_line_is_passed() {
    let bytes = font_bytes();
    let font = Font::new(&bytes).unwrap();
    let job = changed(16, |it| it.blank = true);
    let mut got = Vec::new();
    font.labels(&["A", "", "B"], &job, |it| got.push(it))
        .unwrap();
    assert_eq!(got.len(), 3);
    assert_eq!(got[0], font.draw("A", &job).unwrap());
    assert_eq!((got[1].shape.width, got[1].shape.height), (0, 0));
    assert!(got[1].rows.is_empty());
    assert_eq!(got[2], font.draw("B", &job).unwrap());
}

#[test]
fn a_measure_is_that_of_the_picture() {
    let bytes = font_bytes();
    let font = Font::new(&bytes).unwrap();
    let (picture, got) = (
        font.draw("jolly", &Job::of_size(24)).unwrap(),
        font.measure("jolly", &Job::of_size(24)).unwrap(),
    );
    assert_eq!((got.width, got.height, got.baseline), {
        let it = picture.shape;
        (it.width, it.height, it.baseline)
    });
    let (mut left, mut top, mut right, mut bottom) = (i64::MAX, i64::MAX, -1, -1);
    for row in 0..got.height {
        for column in (0..got.width).filter(|it| picture.is_black(*it, row)) {
            (left, right) = (left.min(column.into()), right.max(column.into()));
            (top, bottom) = (top.min(row.into()), bottom.max(row.into()));
        }
    }
    assert_eq!(
        got.ink,
        Some(tt_render::PixelBox {
            left,
            top,
            right,
            bottom
        })
    );
    assert_eq!(font.measure(" ", &Job::of_size(24)).unwrap().ink, None);
    assert!(!picture.is_black(got.width, 0) && !picture.is_black(0, got.height));
}

#[test]
fn characters_follow_each_other() {
    let bytes = font_bytes();
    let font = Font::new(&bytes).unwrap();
    let job = changed(24, |it| {
        it.grow = false;
    });
    let (got, mut pen) = (font.characters("Hé j", &job).unwrap(), 0);
    assert_eq!(got.len(), 4);
    for it in &got {
        assert_eq!(it.pen, pen);
        pen += i64::from(it.advance);
    }
    assert_eq!(i64::from(font.measure("Hé j", &job).unwrap().width), pen);
    assert_eq!(got[2].ink, None);
}

#[test]
fn a_room_that_is_too_small_is_refused() {
    let bytes = font_bytes();
    let font = Font::new(&bytes).unwrap();
    let picture = font.draw("A", &Job::of_size(16)).unwrap();
    let mut room = vec![7; picture.rows.len() + 1];
    let end = room.len() - 2;
    let refused = font
        .draw_into("A", &Job::of_size(16), &mut room[..end])
        .unwrap_err();
    assert_eq!(
        (refused.status(), refused.wanted()),
        (7, Some(picture.rows.len() as u64))
    );
    assert!(room.iter().all(|it| *it == 7));
    let (shape, filled) = font.draw_into("A", &Job::of_size(16), &mut room).unwrap();
    assert_eq!(
        (shape, &room[..filled], room[filled]),
        (picture.shape, &picture.rows[..], 7)
    );
}

#[test]
fn glyphs_are_those_of_the_program() {
    let bytes = font_bytes();
    let got = Font::new(&bytes).unwrap().map("Aé\u{10ffff}").unwrap();
    let said: String = got
        .iter()
        .map(|it| format!("U+{:04X} {} {}\n", it.code_point, it.glyph, it.advance))
        .collect();
    assert_eq!(
        said.into_bytes(),
        printed(&["map", &font_path(), "Aé\u{10ffff}"], "")
    );
}

#[test]
fn faces_are_counted_and_drawn() {
    let bytes = font_bytes();
    let two = collection(&bytes);
    assert_eq!((faces(&bytes), faces(&two)), (Ok(1), Ok(2)));
    let got = Font::of_face(&two, 1).unwrap().label("Hi", 16);
    assert_eq!(got, Font::new(&bytes).unwrap().label("Hi", 16));
    for face in [2, u32::MAX - 1, u32::MAX] {
        assert_eq!(
            Font::of_face(&two, face)
                .map(|_| ())
                .map_err(|it| it.number()),
            Err(25)
        );
    }
    assert_eq!(
        Font::strict(&two).map(|_| ()).map_err(|it| it.number()),
        Err(1)
    );
}

#[test]
fn a_defect_has_its_place() {
    let bytes = font_bytes();
    let font = Font::new(&bytes).unwrap();
    assert_eq!(
        (
            font.figures().units_per_em,
            font.figures().ascent,
            font.figures().descent
        ),
        (2048, 1901, -483)
    );
    let refused = font
        .draw(
            "2",
            &changed(16, |it| {
                it.fit = Fit::Full;
            }),
        )
        .unwrap_err();
    assert_eq!(
        (refused.status(), refused.number(), refused.table()),
        (1, 35, Some(*b"glyf"))
    );
    assert_eq!(
        refused.to_string(),
        format!("glyf+{}: 35 OffProfile", refused.offset())
    );
    let of_nothing: Error = Font::new(b"OTTO").unwrap_err();
    assert_eq!(
        (of_nothing.status(), of_nothing.table()),
        (1, Some(*b"file"))
    );
}

#[test]
fn a_request_has_no_table() {
    let bytes = font_bytes();
    let font = Font::new(&bytes).unwrap();
    for size in [0, 301, u32::MAX] {
        let refused = font.draw("A", &Job::of_size(size)).unwrap_err();
        assert_eq!(
            (
                refused.status(),
                refused.number(),
                refused.table(),
                refused.line()
            ),
            (2, 60, None, None)
        );
    }
}

#[test]
fn bitmaps_are_those_of_pictures() {
    let bytes = font_bytes();
    let font = Font::new(&bytes).unwrap();
    let (job, text) = (Job::of_size(16), "Hi, Hi");
    let numbers: Vec<u32> = font
        .map(text)
        .unwrap()
        .iter()
        .map(|it| it.glyph)
        .chain([u32::MAX])
        .collect();
    let made = font.glyphs(&numbers, &job).unwrap();
    let picture = font.draw(text, &job).unwrap();
    assert_eq!(made.entries[0], made.entries[4]);
    assert_eq!((made.entries[6].status, made.entries[6].number), (2, 68));
    let (mut pen, mut black) = (0, 0);
    for it in &made.entries[..6] {
        let rows = made.rows_of(it);
        for row in 0..it.height {
            for column in 0..it.width {
                let byte = rows[(row * ((it.width + 7) / 8) + column / 8) as usize];
                let is_black = byte >> (7 - column % 8) & 1 == 1;
                let (x, y) = (
                    pen + it.left + column as i32,
                    picture.shape.baseline as i32 - it.top + row as i32,
                );
                assert_eq!(is_black, picture.is_black(x as u32, y as u32));
                black += u32::from(is_black);
            }
        }
        pen += it.advance as i32;
    }
    let of_picture: u32 = picture.rows.iter().map(|it| it.count_ones()).sum();
    assert_eq!(black, of_picture);
}

#[test]
fn layouts_are_those_of_measures() {
    let bytes = font_bytes();
    let font = Font::new(&bytes).unwrap();
    let job = changed(24, |it| {
        it.grow = false;
        it.margin = 2;
    });
    let (got, wanted) = (
        font.layout("Hi j", &job).unwrap(),
        font.measure("Hi j", &job).unwrap(),
    );
    assert_eq!(
        (got.width, got.height, got.baseline, got.characters),
        (wanted.width, wanted.height, wanted.baseline, 4)
    );
    let pens: Vec<_> = font
        .pens("Hi j", &job)
        .unwrap()
        .iter()
        .map(|it| (it.glyph, it.advance, it.pen))
        .collect();
    let places: Vec<_> = font
        .characters("Hi j", &job)
        .unwrap()
        .iter()
        .map(|it| (it.glyph, it.advance, it.pen))
        .collect();
    assert_eq!(pens, places);
}

#[test]
fn offsets_are_those_of_the_characters() {
    let bytes = font_bytes();
    let font = Font::new(&bytes).unwrap();
    let job = changed(16, |it| it.margin = 1);
    for (text, wanted) in [
        ("Aé€\u{1d11e}B", vec![0, 1, 3, 6, 10]),
        ("\u{fe0f}A\u{fe0f}\u{fe0f}\u{e0100}B", vec![3, 14]),
        ("\u{fe0f}a\u{fe0f}\u{fe0f}", vec![3]),
        ("", vec![]),
    ] {
        let pens = font.pens(text, &job).unwrap();
        assert_eq!(pens.iter().map(|it| it.offset).collect::<Vec<_>>(), wanted);
        let places = font.characters(text, &job).unwrap();
        assert_eq!(
            places.iter().map(|it| it.offset).collect::<Vec<_>>(),
            wanted
        );
    }
}

#[test]
fn advances_have_64ths() {
    let bytes = font_bytes();
    let font = Font::new(&bytes).unwrap();
    let numbers: Vec<u32> = font
        .map("Hij,")
        .unwrap()
        .iter()
        .map(|it| it.glyph)
        .collect();
    // The advances of FreeType 2, whose interpreter of version 35 runs the font's programs.
    for (size, wanted) in [
        (9, [448, 192, 192, 192]),
        (16, [768, 192, 192, 320]),
        (24, [1152, 448, 448, 512]),
    ] {
        let got = font.glyphs(&numbers, &Job::of_size(size)).unwrap();
        let advances: Vec<i64> = got.entries.iter().map(|it| it.advance_64ths).collect();
        assert_eq!(advances, wanted);
        let pixels: Vec<u32> = got.entries.iter().map(|it| it.advance).collect();
        assert_eq!(pixels, wanted.map(|it| (it as u32 + 32) / 64));
    }
}

#[test]
fn a_strike_has_the_rows_of_its_lines() {
    let bytes = font_bytes();
    let font = Font::new(&bytes).unwrap();
    for size in [9, 24, 300] {
        let job = Job::of_size(size);
        let (got, line) = (font.strike(&job).unwrap(), font.layout("A", &job).unwrap());
        assert_eq!(
            (got.rise, got.depth, got.gap, got.step),
            (line.rise, line.depth, line.gap, line.step)
        );
    }
    // The table post has -40 and 90, of 2,048 units in an em.
    let underline = |size| {
        let got = font.strike(&Job::of_size(size)).unwrap().underline.unwrap();
        (got.top, got.thickness)
    };
    assert_eq!((underline(24), underline(300)), ((0, 1), (-6, 13)));
    assert_eq!(font.strike(&Job::of_size(301)).unwrap_err().number(), 60);
}

#[test]
fn this_processor_is_supported() {
    assert!(supported());
}
