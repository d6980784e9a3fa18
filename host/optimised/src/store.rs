//! A store of baths by name: its form is looked at in place, and a call writes only the name, the
//! file and, after it, what is left of a longer one.

use crate::caller::{Caller, Limits};
use crate::file::{found, front, MOST_LENGTH};
use crate::{answer, refused};

const PLACES: usize = 4;
const NAME_LENGTH: usize = 8;
const PLACE_LENGTH: usize = NAME_LENGTH + MOST_LENGTH;

/// A name's letters with zeros after them; zeros alone where a place is free.
type Name = [u8; NAME_LENGTH];

const FREE: Name = [0; NAME_LENGTH];

/// The name of a place, and the length of its file.
#[derive(Clone, Copy)]
struct Held {
    name: Name,
    length: usize,
}

/// Whether all bytes are zero, many at a time.
fn is_zero(bytes: &[u8]) -> bool {
    let joined = |bytes: &[u8]| bytes.iter().fold(0, |all, byte| all | byte);
    let (parts, rest) = bytes.as_chunks::<512>();
    parts.iter().all(|part| joined(part) == 0) && joined(rest) == 0
}

/// A name with zeros after it, if it is one.
fn padded(name: &[u8]) -> Option<Name> {
    let letters = name.iter().all(u8::is_ascii_uppercase);
    if !letters || name.is_empty() || name.len() > NAME_LENGTH {
        return None;
    }
    let mut padded = FREE;
    padded[..name.len()].copy_from_slice(name);
    Some(padded)
}

/// What a place holds, if it has the form.
fn held(place: &[u8; PLACE_LENGTH]) -> Option<Held> {
    let (&name, room) = place.split_first_chunk::<NAME_LENGTH>()?;
    let room: &[u8; MOST_LENGTH] = room.try_into().ok()?;
    if name == FREE {
        return is_zero(room).then_some(Held { name, length: 0 });
    }
    let letters = name.iter().position(|&byte| byte == 0);
    let named = padded(&name[..letters.unwrap_or(NAME_LENGTH)]) == Some(name);
    let length = front(room)?;
    (named && is_zero(&room[length..])).then_some(Held { name, length })
}

/// What the places of a store hold, or 1.
fn look(store: &[u8]) -> Result<[Held; PLACES], u64> {
    let (places, []) = store.as_chunks::<PLACE_LENGTH>() else {
        return Err(refused(1, 0));
    };
    let Ok(places) = <&[_; PLACES]>::try_from(places) else {
        return Err(refused(1, 0));
    };
    let mut all = [Held {
        name: FREE,
        length: 0,
    }; PLACES];
    for (k, place) in places.iter().enumerate() {
        all[k] = held(place).ok_or(refused(1, 0))?;
        let name = all[k].name;
        if name != FREE && all[..k].iter().any(|held| held.name == name) {
            return Err(refused(1, 0));
        }
    }
    Ok(all)
}

/// A checked name, or 22.
fn checked(name: &[u8]) -> Result<Name, u64> {
    padded(name).ok_or(refused(22, 0))
}

/// The place that has this name, zeros for one that is free.
fn position(places: &[Held; PLACES], name: Name) -> Option<usize> {
    places.iter().position(|held| held.name == name)
}

/// Where the place that has this name begins, and the length of its file, or 23.
fn known(places: &[Held; PLACES], name: Name) -> Result<(usize, usize), u64> {
    let place = position(places, name).ok_or(refused(23, 0))?;
    Ok((PLACE_LENGTH * place, places[place].length))
}

#[inline(always)]
fn kept(limits: Limits, store: &mut [u8], name: &[u8], file: &[u8]) -> Result<(), u64> {
    let places = look(store)?;
    let name = checked(name)?;
    found(limits, file)?;
    let place = position(&places, name).or_else(|| position(&places, FREE));
    let place = place.ok_or(refused(24, 0))?;
    let (head, room) = store[PLACE_LENGTH * place..].split_at_mut(NAME_LENGTH);
    head.copy_from_slice(&name);
    let (front, rest) = room.split_at_mut(file.len());
    front.copy_from_slice(file);
    rest[..places[place].length.saturating_sub(file.len())].fill(0);
    Ok(())
}

/// Keep.
#[inline(always)]
pub fn keep(caller: Caller, store: &mut [u8], name: &[u8], file: &[u8]) -> u64 {
    answer(kept(caller.limits(), store, name, file))
}

fn returned(store: &[u8], name: &[u8], buffer: &mut [u8]) -> Result<usize, u64> {
    let places = look(store)?;
    if buffer.len() < MOST_LENGTH {
        return Err(refused(1, 0));
    }
    let (start, length) = known(&places, checked(name)?)?;
    buffer[..length].copy_from_slice(&store[start + NAME_LENGTH..][..length]);
    Ok(length)
}

/// Return: the length of the file.
pub fn return_to(store: &[u8], name: &[u8], buffer: &mut [u8], length: &mut u64) -> u64 {
    match returned(store, name, buffer) {
        Ok(found) => {
            *length = found as u64;
            0
        }
        Err(refusal) => refusal,
    }
}

fn forgotten(store: &mut [u8], name: &[u8]) -> Result<(), u64> {
    let places = look(store)?;
    let (start, length) = known(&places, checked(name)?)?;
    store[start..][..NAME_LENGTH + length].fill(0);
    Ok(())
}

/// Forget.
pub fn forget(store: &mut [u8], name: &[u8]) -> u64 {
    answer(forgotten(store, name))
}

#[cfg(test)]
mod tests {
    use super::{forget, keep, return_to, Caller, MOST_LENGTH, PLACES, PLACE_LENGTH};
    use reference::bath_file::pack_file;
    use reference::generator::Generator;
    use reference::{Refusal, Settings, Size};

    /// The answer that the reference gives, as one number.
    fn code<T>(result: Result<T, Refusal>) -> u64 {
        let refusal = result.err();
        refusal.map_or(0, |r| u64::from(r.number) << 32 | r.place as u64)
    }

    const NAMES: [&[u8]; 8] = [b"A", b"AB", b"ABCDEFGH", b"Z", b"ZA", b"a", b"", b"A\0"];

    /// One of the three calls on a store and a buffer, by the reference too; the answer.
    fn agree(store: &mut [u8], which: i128, name: &[u8], file: &[u8], buffer: &mut [u8]) -> u64 {
        let mut expected = (store.to_vec(), buffer.to_vec());
        let answers = match which {
            0..=4 => {
                let answer = code(reference::keep(&mut expected.0, name, file));
                (keep(Caller::Bench, store, name, file), answer)
            }
            5 => {
                let answer = code(reference::forget(&mut expected.0, name));
                (forget(store, name), answer)
            }
            _ => {
                let answer = reference::return_to(&expected.0, name, &mut expected.1);
                let mut length = 7;
                let found = return_to(store, name, buffer, &mut length);
                assert_eq!(length as usize, answer.unwrap_or(7));
                (found, code(answer))
            }
        };
        assert_eq!(answers.0, answers.1);
        assert!((&*store, &*buffer) == (&expected.0, &expected.1));
        answers.0
    }

    /// On stores that the calls leave, and on the same with a byte changed.
    #[test]
    fn calls_as_the_reference() {
        let mut numbers = Generator::new(8);
        let mut store = vec![0; PLACES * PLACE_LENGTH];
        for _ in 0..600 {
            let (which, size) = (numbers.between(0, 6), Size::new(5, 4));
            let name = NAMES[numbers.between(0, 7) as usize];
            let count = numbers.one_of(&[0, 1, 2, 9, 300]) as usize;
            let particles = numbers.particles(size, count, 5, 9);
            let mut file = pack_file(Settings::new(size, 1, 2), 3, &particles);
            if numbers.once_in(8) {
                let at = numbers.between(0, file.len() as i128 - 1) as usize;
                file[at] ^= 0x81;
            }
            let mut buffer = vec![0x5A; MOST_LENGTH - numbers.between(0, 1) as usize];
            agree(&mut store, which, name, &file, &mut buffer);
            let mut damaged = store.clone();
            let at = numbers.between(0, 800) as usize;
            let place = numbers.between(0, 3) as usize * PLACE_LENGTH;
            damaged[place + at] ^= 1 << numbers.between(0, 7);
            agree(&mut damaged, which, name, &file, &mut buffer);
        }
    }
}
