//! `run` with a file, with wrong arguments, from other folders, and its sentences for refused files.

use std::fs::read_to_string;
use std::os::unix::fs::symlink;
use std::process::Command;

use program::{ended, root, words, Ended, Room};
use reference::particle_set::pack_records;
use reference::{Edge, Header, Particle, Settings, Size};

/// `run` with these arguments, in the repository.
fn run(arguments: &[&str]) -> Ended {
    ended(
        Command::new(program::run())
            .args(arguments)
            .current_dir(root()),
    )
}

fn printed() -> String {
    read_to_string(root().join("examples/printed.txt")).expect("a sample")
}

#[test]
fn a_file() {
    assert_eq!(
        run(&["examples/printed.bath"]),
        Ended::with(0, &printed(), "")
    );
}

#[test]
fn standard_input() {
    for arguments in [&[][..], &["-"]] {
        let file = std::fs::File::open(root().join("examples/printed.bath")).expect("a sample");
        let mut command = Command::new(program::run());
        let told = ended(command.args(arguments).stdin(file));
        assert_eq!(told, Ended::with(0, &printed(), ""));
    }
}

/// A run that a refusal stopped has a report like any other.
#[test]
fn a_stopped_run() {
    let report = read_to_string(root().join("examples/falling.txt")).expect("a sample");
    assert!(report.starts_with("done 62 refusal 13 "));
    assert_eq!(run(&["examples/falling.bath"]), Ended::with(0, &report, ""));
}

#[test]
fn no_such_file_or_a_folder() {
    for (name, why) in [
        ("nowhere.bath", "there is no file nowhere.bath"),
        ("", "there is no file "),
        ("examples", "examples is a directory"),
    ] {
        let said = format!("gondwize: the input could not be read: {why}\n");
        assert_eq!(run(&[name]), Ended::with(1, "", &said));
    }
}

#[test]
fn help_and_wrong_arguments() {
    let help = run(&["--help"]);
    let usage = "usage: ./run [FILE]\n       ./run --help\n";
    assert!(help.status == Some(0) && help.wrote.starts_with(usage));
    assert_eq!((&help.said[..], &run(&["-h"])), ("", &help));
    for wrong in [
        &["a", "b"][..],
        &["--hel"],
        &["-x"],
        &["--help", "a"],
        &["a", "b", "c"],
        &["a"; 10],
        &["a"; 19],
        &["--help"; 10],
        &["a"; 20],
    ] {
        assert_eq!(run(wrong), Ended::with(64, "", &help.wrote), "{wrong:?}");
    }
}

#[test]
fn a_name_with_a_dash() {
    let room = Room::new("dash");
    std::fs::copy(root().join("examples/printed.bath"), room.path("-x")).expect("a copy");
    let run = |name| {
        ended(
            Command::new(program::run())
                .arg(name)
                .current_dir(room.path("")),
        )
    };
    assert_eq!(run("./-x"), Ended::with(0, &printed(), ""));
    assert_eq!(run("-x").status, Some(64));
}

/// Through a link to a link, from another folder, with a file named from there.
#[test]
fn through_a_link() {
    let room = Room::new("link");
    symlink(program::run(), room.path("first")).expect("a link");
    symlink("first", room.path("second")).expect("a link");
    std::fs::copy(root().join("examples/printed.bath"), room.path("a bath")).expect("a copy");
    let mut command = Command::new("./second");
    let told = ended(command.arg("a bath").current_dir(room.path("")));
    assert_eq!(told, Ended::with(0, &printed(), ""));
}

/// A file of these particles.
fn file(settings: Settings, steps: i128, spare: i128, particles: &[Particle]) -> Vec<u8> {
    let count = particles.len() as i128;
    let header = Header {
        settings,
        count,
        steps,
    };
    [&header.pack(spare)[..], &pack_records(particles)].concat()
}

/// A file for every refusal of a file, with its number and place.
fn refused_files() -> Vec<(u32, usize, Vec<u8>)> {
    let settings = Settings::new(Size::new(8, 6), 12, -256);
    let good: Vec<Particle> = (0..4)
        .map(|k| Particle::at_rest(10 + k, 5, 100, 90).with_marks(60 * k as u8))
        .collect();
    let with = |at: usize, change: fn(&mut Particle)| {
        let mut set = good.clone();
        change(&mut set[at]);
        file(settings, 1, 0, &set)
    };
    let whole = file(settings, 1, 0, &good);
    let size = Settings::new(Size::new(3, 6), 0, 0);
    let gravity = Settings::new(Size::new(8, 6), 0, 4_097);
    let edge = |kind, width| {
        let settings = settings.with_edge(Edge::new(kind, width));
        file(settings.with_drag(9), 1, 0, &good)
    };
    let many = Header {
        settings,
        count: 4_097,
        steps: 1,
    };
    let heavy: Vec<Particle> = (0..129)
        .map(|k| Particle::at_rest(k, 1_023, 100, 90))
        .collect();
    vec![
        (1, 0, Vec::new()),
        (1, 0, whole[..10].to_vec()),
        (1, 0, whole[..11].to_vec()),
        (1, 0, [&whole[..], &[0]].concat()),
        // As long as if the records had no marks.
        (1, 0, whole[..whole.len() - good.len()].to_vec()),
        (2, 0, file(size, 1, 0, &good)),
        (3, 0, many.pack(0).to_vec()),
        (4, 1, with(1, |p| p.mass = 0)),
        (5, 2, with(2, |p| p.vy = -64)),
        (6, 3, with(3, |p| p.bxy = -2_048)),
        (7, 0, with(0, |p| p.y = 31)),
        (8, 3, with(3, |p| p.identifier = 12)),
        (9, 128, file(settings, 1, 0, &heavy)),
        (10, 0, file(gravity, 1, 0, &good)),
        (16, 0, file(settings, 1, 1, &good)),
        (16, 0, file(settings, 1, 256, &good)),
        (17, 0, file(settings, 10_001, 0, &good)),
        (18, 0, edge(0, 1)),
        (18, 0, edge(1, 0)),
        (18, 0, edge(2, 0)),
        (18, 0, edge(3, 2)),
    ]
}

/// The words for a file: the header's, where those speak of nothing else.
fn words_of_file(number: u32) -> String {
    match number {
        1 => "the file has the wrong length".to_owned(),
        2 => "nx or ny is not 4 to 48".to_owned(),
        3 => "the count is above 4096".to_owned(),
        7 => "a position is off the grid".to_owned(),
        _ => words(number),
    }
}

#[test]
fn every_refused_file_has_its_sentence() {
    let room = Room::new("refused");
    for (number, place, contents) in refused_files() {
        let path = room.write("file.bath", contents);
        let at_record = !matches!(number, 1 | 2 | 3 | 10 | 16 | 17 | 18);
        let of = if at_record {
            format!(" (record {place})")
        } else {
            String::new()
        };
        let line = format!("refused {number} at {place}");
        let said = format!("gondwize: {line}: {}{of}\n", words_of_file(number));
        let told = run(&[path.to_str().expect("a name in letters")]);
        assert_eq!(told, Ended::with(2, &format!("{line}\n"), &said));
    }
}

#[test]
fn every_refusal_has_words() {
    let all: Vec<String> = (1..=19).map(words).collect();
    assert!(all.iter().all(|text| text.len() > 8));
    assert_eq!(all[7], "an identifier is not above the one before");
}
