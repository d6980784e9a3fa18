//! Baths kept under a name. A store is four places one after the other, each 8 bytes of a name and
//! 61,451 of a bath file. A place is free where all of its bytes are zero; else its name is 1 to 8
//! letters A to Z at the front of 8 bytes, its file is one that read a file accepts for the bench, and
//! what follows either is zero. No name stands in two places.

use std::collections::BTreeMap;

use crate::bath_file::{read_file, read_file_for, told_length};
use crate::caller::Caller;
use crate::limits::{MAX_FILE_LENGTH, NAME_LENGTH};
use crate::limits::{STORE_LENGTH, STORE_PLACES, STORE_PLACE_LENGTH};
use crate::refusal::{require, Refusal, FULL_STORE, LENGTH, NAME, NOT_HELD};

/// A bath of a store: the place where it stands, and its file.
type Bath = (usize, Vec<u8>);

/// What a store holds: each name with its bath.
#[derive(Clone, Debug, Default, PartialEq, Eq)]
pub struct Store {
    baths: BTreeMap<Vec<u8>, Bath>,
}

impl Store {
    /// What a store's bytes hold. Refused: 1 where they are not of a store's length and form.
    pub fn read(bytes: &[u8]) -> Result<Self, Refusal> {
        let refused = Refusal::at(LENGTH, 0);
        require(bytes.len() == STORE_LENGTH, LENGTH, 0)?;
        let mut store = Store::default();
        for (place, bytes) in bytes.chunks(STORE_PLACE_LENGTH).enumerate() {
            if !is_zero(bytes) {
                let (name, file) = bath(bytes).ok_or(refused)?;
                let before = store.baths.insert(name, (place, file));
                require(before.is_none(), LENGTH, 0)?;
            }
        }
        Ok(store)
    }

    /// The bytes of a store that holds this.
    pub fn write(&self) -> Vec<u8> {
        let mut bytes = vec![0; STORE_LENGTH];
        for (name, (place, file)) in &self.baths {
            let bytes = &mut bytes[place * STORE_PLACE_LENGTH..];
            bytes[..name.len()].copy_from_slice(name);
            bytes[NAME_LENGTH..][..file.len()].copy_from_slice(file);
        }
        bytes
    }

    /// The names that are held, in their order.
    pub fn names(&self) -> impl Iterator<Item = &[u8]> {
        self.baths.keys().map(Vec::as_slice)
    }

    /// The file that is held under a name.
    pub fn held(&self, name: &[u8]) -> Option<&[u8]> {
        let (_, file) = self.baths.get(name)?;
        Some(file)
    }

    /// The place that holds a name, or else the lowest that is free.
    fn place_for(&self, name: &[u8]) -> Option<usize> {
        let taken = |place| self.baths.values().any(|bath| bath.0 == place);
        let held = self.baths.get(name).map(|bath| bath.0);
        held.or_else(|| (0..STORE_PLACES).find(|&place| !taken(place)))
    }
}

fn is_zero(bytes: &[u8]) -> bool {
    bytes.iter().all(|&byte| byte == 0)
}

fn is_name(name: &[u8]) -> bool {
    let letters = name.iter().all(u8::is_ascii_uppercase);
    letters && (1..=NAME_LENGTH).contains(&name.len())
}

/// The name and the file of a place that is not free, if it has the form.
fn bath(place: &[u8]) -> Option<(Vec<u8>, Vec<u8>)> {
    let (name, room) = place.split_at(NAME_LENGTH);
    let letters = name.iter().take_while(|&&byte| byte != 0).count();
    let (name, after_name) = name.split_at(letters);
    let length = told_length(room.first_chunk()?);
    let (file, after_file) = room.split_at_checked(length)?;
    let formed = is_name(name) && is_zero(after_name) && is_zero(after_file);
    (formed && read_file(file).is_ok()).then(|| (name.to_vec(), file.to_vec()))
}

/// Keeps a bath under a name, in the place of the one before or else in the lowest that is free.
/// Refused: 1 where the store is not of its length and form; 22; as read a file refuses; 24 where the
/// name is not held and no place is free.
pub fn keep(store: &mut [u8], name: &[u8], file: &[u8]) -> Result<(), Refusal> {
    keep_for(Caller::Bench, store, name, file)
}

/// Keeps a caller's bath.
pub fn keep_for(caller: Caller, store: &mut [u8], name: &[u8], file: &[u8]) -> Result<(), Refusal> {
    let mut held = Store::read(store)?;
    require(is_name(name), NAME, 0)?;
    read_file_for(caller, file)?;
    let place = held.place_for(name).ok_or(Refusal::at(FULL_STORE, 0))?;
    held.baths.insert(name.to_vec(), (place, file.to_vec()));
    store.copy_from_slice(&held.write());
    Ok(())
}

/// Returns to a bath: its file stands at the buffer's front, and its length is answered. Refused: 1
/// where the store is not of its length and form; 1 for a buffer shorter than the longest file; 22; 23.
pub fn return_to(store: &[u8], name: &[u8], buffer: &mut [u8]) -> Result<usize, Refusal> {
    let held = Store::read(store)?;
    require(buffer.len() >= MAX_FILE_LENGTH, LENGTH, 0)?;
    require(is_name(name), NAME, 0)?;
    let file = held.held(name).ok_or(Refusal::at(NOT_HELD, 0))?;
    buffer[..file.len()].copy_from_slice(file);
    Ok(file.len())
}

/// Forgets a bath: its place is free. Refused: 1 where the store is not of its length and form; 22; 23.
pub fn forget(store: &mut [u8], name: &[u8]) -> Result<(), Refusal> {
    let mut held = Store::read(store)?;
    require(is_name(name), NAME, 0)?;
    require(held.baths.remove(name).is_some(), NOT_HELD, 0)?;
    store.copy_from_slice(&held.write());
    Ok(())
}
