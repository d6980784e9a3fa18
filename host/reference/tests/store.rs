//! Stores: their form, what is refused and in which order, and the places that baths take.

use reference::bath_file::pack_file;
use reference::limits::{HEADER_LENGTH, MAX_FILE_LENGTH, NAME_LENGTH, RECORD_LENGTH};
use reference::limits::{STORE_LENGTH, STORE_PLACES, STORE_PLACE_LENGTH};
use reference::particle_set::pack_records;
use reference::{forget, keep, read_file, return_to};
use reference::{Edge, Header, Particle, Refusal, Settings, Size, Store};

const NAMES: [&[u8]; 4] = [b"A", b"BATH", b"ZZZZZZZZ", b"BAT"];
const OTHER: &[u8] = b"OTHER";

fn refused<T>(number: u32) -> Result<T, Refusal> {
    Err(Refusal::at(number, 0))
}

fn settings(gx: i128) -> Settings {
    Settings::new(Size::new(5, 4), gx, -7)
        .with_edge(Edge::sticky(1))
        .with_drag(9)
}

fn particle(identifier: u16) -> Particle {
    Particle::at_rest(identifier, 3, 64 + i128::from(identifier % 90), 64).with_marks(0xA5)
}

/// A bath file of so many particles, the last of whose records ends with a zero byte or not.
fn file(count: u16, gx: i128) -> Vec<u8> {
    let mut particles: Vec<Particle> = (0..count).map(particle).collect();
    if let (Some(last), true) = (particles.last_mut(), gx % 2 == 0) {
        last.marks = 0;
    }
    pack_file(settings(gx), 12, &particles)
}

/// A store that holds so many of the names, with small baths.
fn store(names: usize) -> Vec<u8> {
    let mut store = vec![0; STORE_LENGTH];
    for (k, name) in NAMES[..names].iter().enumerate() {
        let file = file(k as u16, k as i128);
        assert_eq!(keep(&mut store, name, &file), Ok(()));
    }
    store
}

/// The bytes of a place.
fn place(store: &mut [u8], number: usize) -> &mut [u8] {
    &mut store[number * STORE_PLACE_LENGTH..][..STORE_PLACE_LENGTH]
}

/// A place that holds a name, bytes and zeros.
fn place_of(name: &[u8], bytes: &[u8]) -> Vec<u8> {
    let mut place = vec![0; STORE_PLACE_LENGTH];
    place[..name.len()].copy_from_slice(name);
    place[NAME_LENGTH..][..bytes.len()].copy_from_slice(bytes);
    place
}

/// All three operations refuse the store with 1, whatever else is wrong, and change nothing.
fn ill_formed(what: &str, store: &[u8]) {
    assert!(Store::read(store).is_err(), "{what}");
    for name in [NAMES[0], OTHER, b"a"] {
        for file in [file(1, 0), vec![0; 4]] {
            let mut after = store.to_vec();
            assert_eq!(keep(&mut after, name, &file), refused(1), "{what}");
            assert_eq!(forget(&mut after, name), refused(1), "{what}");
            for length in [MAX_FILE_LENGTH, MAX_FILE_LENGTH - 1] {
                let mut buffer = vec![0x5A; length];
                let answer = return_to(&after, name, &mut buffer);
                assert_eq!(answer, refused(1), "{what}");
                assert!(buffer.iter().all(|&byte| byte == 0x5A), "{what}");
            }
            assert!(after == store, "{what}");
        }
    }
}

/// A store whose second place is this one, between others or alone.
fn ill_placed(what: &str, bytes: &[u8]) {
    for names in [0, 4] {
        let mut store = store(names);
        place(&mut store, 1).copy_from_slice(bytes);
        ill_formed(what, &store);
    }
}

#[test]
fn a_store_of_another_length() {
    for names in [0, 4] {
        let store = store(names);
        ill_formed("no byte", &[]);
        ill_formed("one place", &store[..STORE_PLACE_LENGTH]);
        ill_formed("a byte less", &store[..STORE_LENGTH - 1]);
        ill_formed("a byte more", &[&store[..], &[0]].concat());
        ill_formed(
            "a place more",
            &[&store[..], &[0; STORE_PLACE_LENGTH]].concat(),
        );
    }
}

#[test]
fn a_free_place_with_a_byte_that_is_not_zero() {
    let end = STORE_PLACE_LENGTH - 1;
    for at in [
        0,
        1,
        NAME_LENGTH - 1,
        NAME_LENGTH,
        NAME_LENGTH + HEADER_LENGTH,
        40_000,
        end,
    ] {
        for number in 0..STORE_PLACES {
            for byte in [1, b'A', 0x80] {
                let mut store = store(0);
                place(&mut store, number)[at] = byte;
                ill_formed(&format!("byte {at} of place {number}"), &store);
            }
        }
    }
}

#[test]
fn a_name_that_is_none() {
    let file = file(2, 1);
    let names: [&[u8]; 11] = [
        b"", b"a", b"BATh", b"B4", b"A B", b"A-", b"@", b"[", b"\x80", b"\0A", b"A\0B",
    ];
    for name in names
        .into_iter()
        .chain([&b"ABCDEFG\x01"[..], b"A\0\0\0\0\0\0B"])
    {
        ill_placed(&format!("{name:?}"), &place_of(name, &file));
    }
}

#[test]
fn a_name_without_a_file() {
    ill_placed("a name alone", &place_of(b"BATH", &[]));
    ill_placed("eight letters alone", &place_of(b"ABCDEFGH", &[]));
}

/// A file for each refusal of read a file.
fn refused_files() -> Vec<(u32, Vec<u8>)> {
    let with = |change: fn(&mut Header)| {
        let mut header = Header {
            settings: settings(3),
            count: 2,
            steps: 5,
        };
        change(&mut header);
        let records = pack_records(&[particle(3), particle(5)]);
        [&header.pack(0)[..], &records].concat()
    };
    let set = |change: fn(&mut [Particle])| {
        let mut particles: Vec<Particle> = (0..129).map(particle).collect();
        change(&mut particles);
        pack_file(settings(3), 5, &particles)
    };
    let mut spare = file(1, 1);
    spare[HEADER_LENGTH - 1] |= 1;
    let files = vec![
        (2, with(|h| h.settings.size.nx = 3)),
        (10, with(|h| h.settings.gy = 4097)),
        (18, with(|h| h.settings.edge = Edge::new(3, 1))),
        (3, with(|h| h.count = 4097)),
        (17, with(|h| h.steps = 10_001)),
        (16, spare),
        (4, set(|set| set[1].mass = 0)),
        (5, set(|set| set[1].vy = -64)),
        (6, set(|set| set[1].byx = -2048)),
        (7, set(|set| set[1].x = 224)),
        (8, set(|set| set[1].identifier = 0)),
        (9, set(|set| set.iter_mut().for_each(|p| p.mass = 1023))),
    ];
    for (number, file) in &files {
        assert_eq!(
            read_file(file).map_err(|refusal| refusal.number),
            Err(*number)
        );
    }
    files
}

#[test]
fn a_file_that_is_refused() {
    for (number, file) in refused_files() {
        ill_placed(&format!("a file with {number}"), &place_of(b"BATH", &file));
    }
}

#[test]
fn a_file_that_does_not_end_where_its_count_says() {
    let file = file(2, 1);
    let count = |count| {
        let header = Header {
            settings: settings(1),
            count,
            steps: 12,
        };
        [&header.pack(0)[..], &file[HEADER_LENGTH..]].concat()
    };
    ill_placed("a record less", &place_of(b"BATH", &count(1)));
    ill_placed("no record", &place_of(b"BATH", &count(0)));
    ill_placed("a record more", &place_of(b"BATH", &count(3)));
    ill_placed("as many as fit", &place_of(b"BATH", &count(4096)));
    ill_placed("one more than fit", &place_of(b"BATH", &count(4097)));
    ill_placed("the largest count", &place_of(b"BATH", &count(8191)));
    for at in [file.len(), file.len() + 1, 30_000, MAX_FILE_LENGTH - 1] {
        let mut place = place_of(b"BATH", &file);
        place[NAME_LENGTH + at] = 1;
        ill_placed(&format!("a byte at {at} of the file"), &place);
    }
}

#[test]
fn a_name_in_two_places() {
    for (first, second) in [(0, 1), (0, 3), (1, 2), (2, 3)] {
        for same in [true, false] {
            let mut store = store(4);
            let mut copied = place(&mut store, first).to_vec();
            if !same {
                copied = place_of(NAMES[first], &file(5, 4));
            }
            place(&mut store, second).copy_from_slice(&copied);
            ill_formed(&format!("{first} and {second}"), &store);
        }
    }
}

/// A name that begins another one is another.
#[test]
fn names_that_begin_alike() {
    let mut store = store(0);
    for (k, name) in [&b"A"[..], b"AA", b"AAAAAAAA", b"AAAAAAA"]
        .iter()
        .enumerate()
    {
        assert_eq!(keep(&mut store, name, &file(k as u16, 5)), Ok(()));
    }
    for (k, name) in [&b"A"[..], b"AA", b"AAAAAAAA", b"AAAAAAA"]
        .iter()
        .enumerate()
    {
        let mut buffer = vec![0x5A; MAX_FILE_LENGTH];
        let length = return_to(&store, name, &mut buffer).expect("a name that is held");
        assert_eq!(buffer[..length], file(k as u16, 5));
    }
    assert_eq!(forget(&mut store, b"AAA"), refused(23));
}

#[test]
fn names_that_are_refused() {
    let long: &[u8] = &[b'A'; STORE_LENGTH];
    let names: [&[u8]; 10] = [
        b"",
        b"a",
        b"A\0",
        b"\0",
        b"A\0B",
        b"ABCDEFGHI",
        b"A1",
        b"@",
        b"[",
        long,
    ];
    for names_held in [0, 4] {
        let before = store(names_held);
        for name in names {
            let mut after = before.clone();
            let mut buffer = vec![0x5A; MAX_FILE_LENGTH];
            // Before the file's own checks, and before 23 and 24.
            assert_eq!(keep(&mut after, name, &[]), refused(22));
            assert_eq!(keep(&mut after, name, &file(1, 0)), refused(22));
            assert_eq!(return_to(&after, name, &mut buffer), refused(22));
            assert_eq!(forget(&mut after, name), refused(22));
            // After a buffer that is too short.
            let short = &mut buffer[..MAX_FILE_LENGTH - 1];
            assert_eq!(return_to(&after, name, short), refused(1));
            assert!(after == before && buffer == vec![0x5A; MAX_FILE_LENGTH]);
        }
    }
}

#[test]
fn a_file_is_checked_before_a_full_store() {
    let before = store(4);
    let mut after = before.clone();
    for (number, file) in refused_files() {
        let stated = read_file(&file).expect_err("a refused file");
        assert_eq!(stated.number, number);
        assert_eq!(keep(&mut after, OTHER, &file), Err(stated));
        assert_eq!(keep(&mut after, NAMES[2], &file), Err(stated));
    }
    for length in [
        0,
        HEADER_LENGTH - 1,
        HEADER_LENGTH + RECORD_LENGTH + 1,
        MAX_FILE_LENGTH + 1,
    ] {
        let mut file = file(1, 0);
        file.resize(length, 0);
        assert_eq!(keep(&mut after, OTHER, &file), refused(1));
    }
    assert_eq!(keep(&mut after, OTHER, &file(1, 0)), refused(24));
    assert!(after == before);
}

#[test]
fn a_name_that_is_not_held() {
    for names_held in [0, 3, 4] {
        let before = store(names_held);
        let mut after = before.clone();
        let mut buffer = vec![0x5A; MAX_FILE_LENGTH + 3];
        assert_eq!(return_to(&after, OTHER, &mut buffer), refused(23));
        assert_eq!(forget(&mut after, OTHER), refused(23));
        let short = &mut buffer[..MAX_FILE_LENGTH - 1];
        assert_eq!(return_to(&after, OTHER, short), refused(1));
        assert!(after == before && buffer == vec![0x5A; MAX_FILE_LENGTH + 3]);
    }
}

/// The first place that is free is taken, and a name keeps its place.
#[test]
fn the_place_of_a_bath() {
    let mut held = store(4);
    for (k, name) in NAMES.iter().enumerate() {
        let expected = place_of(name, &file(k as u16, k as i128));
        assert!(place(&mut held, k) == expected);
    }
    for k in [1, 2] {
        assert_eq!(forget(&mut held, NAMES[k]), Ok(()));
        assert!(place(&mut held, k).iter().all(|&byte| byte == 0));
    }
    assert_eq!(keep(&mut held, NAMES[3], &file(9, 8)), Ok(()));
    assert_eq!(keep(&mut held, OTHER, &file(7, 6)), Ok(()));
    assert_eq!(keep(&mut held, NAMES[1], &file(5, 4)), Ok(()));
    let expected = [
        place_of(NAMES[0], &file(0, 0)),
        place_of(OTHER, &file(7, 6)),
        place_of(NAMES[1], &file(5, 4)),
        place_of(NAMES[3], &file(9, 8)),
    ];
    assert!(held == expected.concat());
    assert_eq!(keep(&mut held, NAMES[2], &file(1, 0)), refused(24));
    assert_eq!(keep(&mut held, OTHER, &file(1, 0)), Ok(()));
}

#[test]
fn a_shorter_bath_leaves_no_byte_of_the_longer() {
    let mut held = store(2);
    let before = held.clone();
    for count in [4096, 3, 0, 17, 1] {
        assert_eq!(keep(&mut held, OTHER, &file(count, 1)), Ok(()));
        assert!(place(&mut held, 2) == place_of(OTHER, &file(count, 1)));
    }
    assert_eq!(forget(&mut held, OTHER), Ok(()));
    assert!(held == before);
}

#[test]
fn a_return_leaves_the_rest_of_the_buffer() {
    let held = store(4);
    for (k, name) in NAMES.iter().enumerate() {
        let file = file(k as u16, k as i128);
        for length in [MAX_FILE_LENGTH, MAX_FILE_LENGTH + 1, 2 * MAX_FILE_LENGTH] {
            let mut buffer = vec![0x5A; length];
            assert_eq!(return_to(&held, name, &mut buffer), Ok(file.len()));
            let (front, rest) = buffer.split_at(file.len());
            assert!(front == file && rest.iter().all(|&byte| byte == 0x5A));
        }
    }
}

#[test]
fn four_of_the_largest_baths() {
    let mut held = store(0);
    let largest = |k: i128| file(4096, k);
    for (k, name) in (0..).zip(NAMES) {
        assert_eq!(keep(&mut held, name, &largest(k)), Ok(()));
    }
    assert_eq!(keep(&mut held, OTHER, &largest(4)), refused(24));
    for (k, name) in (0..).zip(NAMES) {
        let mut buffer = vec![0x5A; MAX_FILE_LENGTH];
        assert_eq!(return_to(&held, name, &mut buffer), Ok(MAX_FILE_LENGTH));
        assert!(buffer == largest(k));
    }
    assert_eq!(keep(&mut held, NAMES[1], &largest(9)), Ok(()));
    for name in NAMES {
        assert_eq!(forget(&mut held, name), Ok(()));
    }
    assert!(held == store(0));
}

/// What is read is written back as it was.
#[test]
fn a_well_formed_store_is_written_as_it_is_read() {
    for names in 0..=4 {
        let held = store(names);
        let read = Store::read(&held).expect("a store of the form");
        assert!(read.write() == held);
    }
}
