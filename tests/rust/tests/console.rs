//! The console run as a program: the gate's script, the meter's, and a short talk over log and reader.

use std::io::Write;
use std::path::Path;
use std::process::{Command, Stdio};

/// What the console prints for these lines, with its files in a directory.
fn console(input: &[u8], directory: &Path) -> String {
    let mut child = Command::new(env!("CARGO_BIN_EXE_console"))
        .current_dir(directory)
        .stdin(Stdio::piped())
        .stdout(Stdio::piped())
        .spawn()
        .expect("the console starts");
    let mut stdin = child.stdin.take().expect("a pipe");
    let text = input.to_owned();
    let feed = std::thread::spawn(move || stdin.write_all(&text));
    let output = child.wait_with_output().expect("the console ends");
    feed.join().expect("fed").expect("all of it");
    String::from_utf8(output.stdout).expect("plain text")
}

/// Each line with its answer.
fn talk(lines: &[(&str, &str)]) {
    let input: String = lines.iter().map(|(line, _)| format!("{line}\n")).collect();
    let output = console(input.as_bytes(), Path::new("."));
    let answers: Vec<&str> = output.lines().collect();
    assert_eq!(answers.len(), lines.len());
    for ((line, expected), answer) in lines.iter().zip(answers) {
        assert_eq!(answer, *expected, "to {line}");
    }
}

/// A script's answers are the stored ones; of two that differ the first is told.
fn stored(answers: &str, expected: &str) {
    for (at, (answer, expected)) in answers.lines().zip(expected.lines()).enumerate() {
        assert_eq!(answer, expected, "answer {}", at + 1);
    }
    assert_eq!(answers, expected);
}

#[test]
fn the_meters_script() {
    let answers = console(include_bytes!("../scripts/meter.in"), Path::new("."));
    stored(&answers, include_str!("../scripts/meter.out"));
}

/// What the gate holds the proved console to is what this one says; the script begins in an empty directory.
#[test]
fn the_gates_script() {
    let directory = std::env::temp_dir().join(format!("metlazuel-check-{}", std::process::id()));
    std::fs::create_dir(&directory).expect("a new directory");
    let answers = console(include_bytes!("../../../crates/bench/stdin"), &directory);
    std::fs::remove_dir_all(&directory).expect("the directory goes");
    stored(&answers, include_str!("../../../crates/bench/stdout"));
}

#[test]
fn log_and_reader() {
    let path = std::env::temp_dir().join(format!("metlazuel-check-{}.gel", std::process::id()));
    let path = path.to_str().expect("a plain path");
    talk(&[
        ("ask 1 0 0", "28"),
        ("reply", "28"),
        ("report 0", "28"),
        ("cell 0 0", "28"),
        (&format!("save {path}"), "28"),
        ("lapse", "0"),
        ("open", "0 closed"),
        ("log 2024 5 17 1 20 100 0", "27"),
        ("log 1999 5 17 1 30 100 0", "27"),
        ("log 2024 5 17 1 30 100 0", "0"),
        ("reply 00", "20"),
        ("ask 1 0 48", "22"),
        ("ask 1 1 0", "22"),
        ("ask 1 0 0", "0 010324051100536B"),
        ("ask 1 0 48", "21"),
        ("open", "0 1 0 0"),
        ("log 2024 5 17 0 30 100 0", "27"),
        ("open", "0 1 0 0"),
        // a reply thrown away: length, CRC, address, function, top bit, parameter; the ask stays
        ("reply", "50 0"),
        ("reply 010324", "50 3"),
        ("reply 0183240000000000000000000000", "50 14"),
        ("reply 010324000000000000000000D63B", "51"),
        ("reply 020324000C00000003000000D22F", "52"),
        ("reply 011024000C000000030000008DAF", "53"),
        ("reply 01832400EB30", "53"),
        ("reply 010328000C000000030000001614", "54"),
        ("open", "0 1 0 0"),
        // 01 83 24 03 and its CRC
        ("reply 01832403AB31", "24 3"),
        ("open", "0 closed"),
        ("cell 0 0", "0 gap 0"),
        ("cell 0 48", "22"),
        ("report 0", "0 48 0 0 0 0 0 0 0"),
        ("report 1", "22"),
        (&format!("save {path}"), "0"),
        ("log 2000 1 1 62 15 1 0", "0"),
        ("ask 9 61 95", "0 09032403025FFF2A"),
        (&format!("load {path}"), "0"),
        ("open", "0 closed"),
        ("report 0", "0 48 0 0 0 0 0 0 0"),
        ("load /nowhere/at/all", "?"),
        ("save /nowhere/at/all", "?"),
        ("request 1 36 5 17 0", "0 010324051100536B"),
        ("request 1 37 0 0 0", "27"),
        ("decode 1 36 5 17 0", "50 0"),
        ("decode 1 36 5 17 0 010324020C00000003000000CF4B", "53"),
        ("decode 1 37 0 0 0", "27"),
        ("decode 1 36 5 17 0 01832403AB31", "24 3"),
    ]);
    std::fs::remove_file(path).expect("the file was written");
}

#[test]
fn a_carriage_return_at_a_lines_end() {
    let longest = format!("frame {}", "0".repeat(4_090));
    talk(&[
        ("open\r", "0 closed"),
        ("open\r\r", "?"),
        ("open \r", "?"),
        (&longest, "2"),
        (&format!("{longest}\r"), "2"),
        (&format!("{longest}0"), "?"),
    ]);
    assert_eq!(console(b"\r\n#\r\nlapse\r", Path::new(".")), "0\n");
}

#[test]
fn the_report_of_document_01_with_p9() {
    talk(&[
        ("log 2024 5 17 1 30 100 0", "0"),
        ("ask 1 0 0", "0 010324051100536B"),
        ("reply 010324000000000000000000D63A", "0"),
        ("cell 0 0", "0 empty 0"),
        ("ask 1 0 0", "0 010324051100536B"),
        ("reply 010324000C00000003000000D62B", "0"),
        ("ask 1 0 0", "0 010324051100536B"),
        ("reply 010324000D0000000300000017E7", "25"),
        ("open", "0 closed"),
        ("cell 0 0", "0 measured 12 0 3 0 0"),
        ("ask 1 0 1", "0 01032405110192AB"),
        ("reply 010324000000000000000000D63A", "0"),
        ("report 0", "0 46 1 1 12 0 3 0 0"),
    ]);
}

#[test]
fn the_mercury_206() {
    talk(&[
        ("mercury-frame 000004D2637948", "0 000004D26300000000000000E74F"),
        ("mercury-ask 1234 39", "0 000004D227797B"),
        ("mercury-ask 1234 99", "0 000004D2637948"),
        ("mercury-ask 1234 129", "0 000004D281F901"),
        ("mercury-ask 1234 130", "40"),
        ("mercury 1234 1 2 3 99999999 2300 150 999999 5050 3a000000000000", "0"),
        ("mercury-frame 000004D281F901", "0 000004D28150503A000000000000CCA4"),
        ("mercury-frame 0000000081E460", "40"),
        ("mercury-frame 000004D2810901", "40"),
        // a figure above its digits: the ones before stay, and so does the address
        ("mercury 5 1 2 3 100000000 2300 150 999999 5050 3A000000000000", "27"),
        ("mercury 5 1 2 3 4 2300 150 1000000 5050 3A000000000000", "27"),
        ("mercury-frame 000004D227797B", "0 000004D22700000001000000020000000399999999D3F9"),
        ("mercury-decode 1234 39 000004D22700000001000000020000000399999999D3F9", "0 1 2 3 99999999"),
        ("mercury-decode 1234 129 000004D28150503A000000000000CCA4", "0 5050 3A000000000000"),
        ("mercury-decode 1234 99 000004D28150503A000000000000CCA4", "40"),
        ("mercury-decode 1234 129", "40"),
        ("mercury-decode 1234 129 000004D2815A50000000000000002807", "41"),
        ("mercury 1234 0 0 0 0 0 0 0 0 000000000000", "?"),
        ("mercury-frame", "?"),
        ("mercury-ask 1234", "?"),
        ("mercury-decode 1234", "?"),
    ]);
}

#[test]
fn function_4() {
    talk(&[
        ("record", "0 1 0 0 2000 1 1 0 0 0 0 0 1 1"),
        ("request4 1 36 5 17 0", "0 010424051100E6AB"),
        ("request4 1 21 0 0 0", "27"),
        ("frame 010401E3", "11 01840002C030"),
        ("slice 5 17 0 12 0 3 0", "0"),
        ("frame 010424051100E6AB", "0 0104240052499D3A0000000052499D39000000008FA4"),
        ("inquire4 1 36 5 17 0", "0 3A9D4952 00000000 399D4952 00000000"),
        ("inquire4 1 36 5 17 48", "24 3"),
        ("inquire4 2 36 5 17 0", "2"),
        ("inquire4 1 40 5 17 0", "27"),
        ("decode4 1 36 5 17 0 0104240052499D3A0000000052499D39000000008FA4", "0 3A9D4952 00000000 399D4952 00000000"),
        ("decode4 1 36 5 17 0 010324000C00000003000000D62B", "50 14"),
        ("decode 1 36 5 17 0 0104240052499D3A0000000052499D39000000008FA4", "50 22"),
        ("decode4 1 36 5 17 0 01832403AB31", "53"),
        ("decode4 1 36 5 17 0", "50 0"),
        ("meter 1 30 100 673 0 2024 5 17 0 0 0 1", "0"),
        ("ratio 1000 1000", "0"),
        ("slice 5 17 0 24929 0 0 0", "0"),
        ("inquire4 1 36 5 17 0", "0 4B800000 00000000 00000000 00000000"),
        // out of range: the ones before stay
        ("ratio 1001 1000", "27"),
        ("ratio 0 1", "27"),
        ("record", "0 1 0 0 2024 5 17 0 0 0 1 1 1000 1000"),
        ("ratio 1", "?"),
        ("ratio 1 4294967296", "?"),
        ("meter 1 30 1 65535 0 2024 5 17 0 0 0 1", "0"),
        ("record", "0 1 0 0 2024 5 17 0 0 0 1 0 1 1"),
        ("ratio 1 1000000", "0"),
        ("slice 5 17 0 65535 0 0 0", "0"),
        ("inquire4 1 36 5 17 0", "0 4F7FFE00 00000000 00000000 00000000"),
        // the log takes function 3 only
        ("log 2024 5 17 1 30 100 0", "0"),
        ("ask 1 0 0", "0 010324051100536B"),
        ("reply 0104240052499D3A0000000052499D39000000008FA4", "50 22"),
        ("reply 010424000C00000003000000CC5F", "53"),
        ("open", "0 1 0 0"),
    ]);
}

#[test]
fn the_two_season_days() {
    let path = std::env::temp_dir().join(format!("metlazuel-check-seasons-{}.gel", std::process::id()));
    let path = path.to_str().expect("a plain path");
    talk(&[
        ("log 2024 3 31 1 30 100", "?"),
        ("log 2024 3 31 1 30 100 1 1", "?"),
        ("log 2024 3 31 1 30 100 256", "?"),
        ("log 2024 3 31 1 30 100 2", "27"),
        ("log 2024 3 31 1 30 100 255", "27"),
        // the March day: no slots 4 and 5, and 03:00 is there
        ("log 2024 3 31 1 30 100 1", "0"),
        ("cell 0 3", "0 gap 0"),
        ("cell 0 4", "22"),
        ("cell 0 5", "22"),
        ("cell 0 6", "0 gap 0"),
        ("ask 1 0 4", "22"),
        ("ask 1 0 5", "22"),
        ("open", "0 closed"),
        ("ask 1 0 6", "0 010324031F063708"),
        ("reply 010324000C00000003000000D62B", "0"),
        ("report 0", "0 45 0 1 12 0 3 0 0"),
        (&format!("save {path}"), "0"),
        ("log 2024 3 31 1 30 100 0", "0"),
        ("cell 0 4", "0 gap 0"),
        ("report 0", "0 48 0 0 0 0 0 0 0"),
        (&format!("load {path}"), "0"),
        ("cell 0 4", "22"),
        ("report 0", "0 45 0 1 12 0 3 0 0"),
        ("log 2024 3 31 1 15 100 1", "0"),
        ("report 0", "0 92 0 0 0 0 0 0 0"),
        ("cell 0 8", "22"),
        ("cell 0 11", "22"),
        ("cell 0 12", "0 gap 0"),
        // the October day: 4 and 5 are counted once more when they are measured, 03:00 is not
        ("log 2024 10 27 1 30 100 1", "0"),
        ("ask 1 0 4", "0 0103240A1B04640B"),
        ("reply 010324000000000000000000D63A", "0"),
        ("report 0", "0 47 1 0 0 0 0 0 0"),
        ("ask 1 0 4", "0 0103240A1B04640B"),
        ("reply 010324000C00000003000000D62B", "0"),
        ("report 0", "0 47 0 1 12 0 3 0 1"),
        ("ask 1 0 6", "0 0103240A1B06E5CA"),
        ("reply 010324000C00000003000000D62B", "0"),
        ("report 0", "0 46 0 2 24 0 6 0 1"),
    ]);
    std::fs::remove_file(path).expect("the file was written");
}

#[test]
fn lapses_counted() {
    let path = std::env::temp_dir().join(format!("metlazuel-check-lapses-{}.gel", std::process::id()));
    let path = path.to_str().expect("a plain path");
    talk(&[
        ("lapse", "0"),
        ("log 2024 5 17 1 30 100 0", "0"),
        ("lapse", "0"),
        ("cell 0 0", "0 gap 0"),
        ("ask 1 0 0", "0 010324051100536B"),
        ("lapse", "0"),
        ("open", "0 closed"),
        ("cell 0 0", "0 gap 1"),
        ("lapse", "0"),
        ("cell 0 0", "0 gap 1"),
        // a malformed reply and a refused one are no lapses
        ("ask 1 0 0", "0 010324051100536B"),
        ("reply", "50 0"),
        ("reply 01832403AB31", "24 3"),
        ("lapse", "0"),
        ("cell 0 0", "0 gap 1"),
        // what a reply puts keeps them
        ("ask 1 0 0", "0 010324051100536B"),
        ("reply 010324000000000000000000D63A", "0"),
        ("cell 0 0", "0 empty 1"),
        ("ask 1 0 0", "0 010324051100536B"),
        ("lapse", "0"),
        ("cell 0 0", "0 empty 2"),
        ("ask 1 0 0", "0 010324051100536B"),
        ("reply 010324000C00000003000000D62B", "0"),
        ("cell 0 0", "0 measured 12 0 3 0 2"),
        ("ask 1 0 0", "0 010324051100536B"),
        ("lapse", "0"),
        ("cell 0 0", "0 measured 12 0 3 0 3"),
        ("cell 0 1", "0 gap 0"),
        ("report 0", "0 47 0 1 12 0 3 0 0"),
        (&format!("save {path}"), "0"),
        ("log 2024 5 17 1 30 100 0", "0"),
        ("cell 0 0", "0 gap 0"),
        (&format!("load {path}"), "0"),
        ("cell 0 0", "0 measured 12 0 3 0 3"),
        ("lapse 0", "?"),
    ]);
    std::fs::remove_file(path).expect("the file was written");
}

/// A cell counts up to 255 and stays there.
#[test]
fn the_most_lapses() {
    let mut lines = vec![("log 2024 5 17 1 30 100 0", "0")];
    for _ in 0..255 {
        lines.extend([("ask 1 0 0", "0 010324051100536B"), ("lapse", "0")]);
    }
    lines.push(("cell 0 0", "0 gap 255"));
    lines.extend([("ask 1 0 0", "0 010324051100536B"), ("lapse", "0"), ("cell 0 0", "0 gap 255")]);
    talk(&lines);
}

/// After each call the report is that of the cells, on its day and on the other.
#[test]
fn figures_kept() {
    let path = std::env::temp_dir().join(format!("metlazuel-check-figures-{}.gel", std::process::id()));
    let path = path.to_str().expect("a plain path");
    talk(&[
        ("report 0", "28"),
        ("log 2024 10 26 2 30 100 1", "0"),
        ("report 0", "0 48 0 0 0 0 0 0 0"),
        ("ask 1 1 4", "0 0103240A1B04640B"),
        ("report 1", "0 48 0 0 0 0 0 0 0"),
        ("reply 010324000000000000000000D63A", "0"),
        ("report 1", "0 47 1 0 0 0 0 0 0"),
        ("report 0", "0 48 0 0 0 0 0 0 0"),
        ("ask 1 1 4", "0 0103240A1B04640B"),
        ("reply 010324000C00000003000000D62B", "0"),
        ("report 1", "0 47 0 1 12 0 3 0 1"),
        ("ask 1 1 4", "0 0103240A1B04640B"),
        ("reply 010324000D0000000300000017E7", "25"),
        ("report 1", "0 47 0 1 12 0 3 0 1"),
        ("ask 1 1 4", "0 0103240A1B04640B"),
        ("lapse", "0"),
        ("report 1", "0 47 0 1 12 0 3 0 1"),
        (&format!("save {path}"), "0"),
        ("log 2024 10 27 1 15 100 2", "27"),
        ("report 1", "0 47 0 1 12 0 3 0 1"),
        ("log 2024 10 27 1 15 100 1", "0"),
        ("report 0", "0 96 0 0 0 0 0 0 0"),
        ("report 1", "22"),
        (&format!("load {path}"), "0"),
        ("report 0", "0 48 0 0 0 0 0 0 0"),
        ("report 1", "0 47 0 1 12 0 3 0 1"),
        ("report 2", "22"),
    ]);
    std::fs::remove_file(path).expect("the file was written");
}

/// Four cells whose kinds share a byte, put in another order than theirs: each has its own counts and lapses, in a file too.
#[test]
fn neighbours() {
    let path = std::env::temp_dir().join(format!("metlazuel-check-neighbours-{}.gel", std::process::id()));
    let path = path.to_str().expect("a plain path");
    talk(&[
        ("log 2024 5 17 1 30 100 0", "0"),
        ("ask 1 0 2", "0 010324051102D2AA"),
        ("reply 010324000C00000003000000D62B", "0"),
        ("ask 1 0 0", "0 010324051100536B"),
        ("reply 010324000D0000000300000017E7", "0"),
        ("ask 1 0 3", "0 010324051103136A"),
        ("reply 010324000000000000000000D63A", "0"),
        ("ask 1 0 1", "0 01032405110192AB"),
        ("lapse", "0"),
        ("cell 0 0", "0 measured 13 0 3 0 0"),
        ("cell 0 1", "0 gap 1"),
        ("cell 0 2", "0 measured 12 0 3 0 0"),
        ("cell 0 3", "0 empty 0"),
        ("cell 0 4", "0 gap 0"),
        (&format!("save {path}"), "0"),
        ("log 2024 5 17 1 30 100 0", "0"),
        (&format!("load {path}"), "0"),
        ("cell 0 0", "0 measured 13 0 3 0 0"),
        ("cell 0 1", "0 gap 1"),
        ("cell 0 2", "0 measured 12 0 3 0 0"),
        ("cell 0 3", "0 empty 0"),
        ("report 0", "0 45 1 2 25 0 6 0 0"),
    ]);
    std::fs::remove_file(path).expect("the file was written");
}
