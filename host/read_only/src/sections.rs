//! The loaded sections of objects, of archives and of programs: ELF for x86-64, and `ar`.
//!
//! What is not understood is an error, so that nothing is passed over.

/// A section that is loaded, with its bytes in the file.
#[derive(Clone, Debug, PartialEq, Eq)]
pub struct Section<'a> {
    /// Its name, after that of the archive's member where it is in one.
    pub name: String,
    /// How it is loaded.
    pub kind: Kind,
    /// Its bytes.
    pub bytes: &'a [u8],
}

/// How a section is loaded.
#[derive(Clone, Copy, Debug, PartialEq, Eq)]
pub enum Kind {
    /// Neither written nor executed.
    ReadOnly,
    /// Executed.
    Code,
    /// Written, and not executed.
    Writable,
}

/// A file's header, and one of the headers of its sections.
const FILE_HEADER: u64 = 64;
const SECTION_HEADER: u64 = 64;

/// ELF of 64 bits, little-endian, version 1, and its number for x86-64.
const FORM: [u8; 3] = [2, 1, 1];
const X86_64: u64 = 62;

/// Types of sections: none, and one without bytes in the file.
const NULL: u64 = 0;
const NOBITS: u64 = 8;

/// Flags of sections.
const WRITE: u64 = 1;
const ALLOC: u64 = 2;
const EXECUTE: u64 = 4;
const COMPRESSED: u64 = 0x800;

/// What an archive begins with, the length of a member's header and what that ends with.
const ARCHIVE: &[u8] = b"!<arch>\n";
const MEMBER_HEADER: u64 = 60;
const MEMBER_END: &[u8] = b"`\n";

/// A part of the bytes, if all of it is there.
fn part(bytes: &[u8], from: u64, length: u64) -> Option<&[u8]> {
    let to = usize::try_from(from.checked_add(length)?).ok()?;
    bytes.get(usize::try_from(from).ok()?..to)
}

/// The little-endian number of so many bytes in a header.
fn number(header: &[u8], from: usize, length: usize) -> u64 {
    let bytes = header[from..from + length].iter().rev();
    bytes.fold(0, |number, &byte| number << 8 | u64::from(byte))
}

/// The text from a place in a table of names to what ends it.
fn name(table: &[u8], from: u64, end: &[u8]) -> Option<String> {
    let names = table.get(usize::try_from(from).ok()?..)?;
    let length = names.windows(end.len()).position(|here| here == end)?;
    Some(String::from_utf8_lossy(&names[..length]).into_owned())
}

/// The loaded sections of an object or a program.
fn of_object(bytes: &[u8]) -> Result<Vec<Section<'_>>, String> {
    if !bytes.starts_with(b"\x7fELF") {
        return Err("neither an ELF file nor an archive of them".to_owned());
    }
    let header = part(bytes, 0, FILE_HEADER).ok_or("its ELF header is cut short")?;
    if header[4..7] != FORM || number(header, 18, 2) != X86_64 {
        return Err("not ELF of 64 bits for x86-64".to_owned());
    }
    let [size, count, names] = [58, 60, 62].map(|from| number(header, from, 2));
    if count == 0 || size != SECTION_HEADER {
        return Err(format!("{count} section headers of {size} bytes"));
    }
    let headers = part(bytes, number(header, 40, 8), count * size);
    let headers = headers.ok_or("its section headers are not all in the file")?;
    let headers: Vec<&[u8]> = headers.chunks(SECTION_HEADER as usize).collect();
    let contents = |index: usize| {
        let header = headers[index];
        match number(header, 4, 4) {
            NULL | NOBITS => Ok(&bytes[..0]),
            _ => part(bytes, number(header, 24, 8), number(header, 32, 8))
                .ok_or_else(|| format!("its section {index} is not all in the file")),
        }
    };
    if names >= count {
        return Err("it has no names of sections".to_owned());
    }
    let names = contents(names as usize)?;
    let mut sections = Vec::new();
    for (index, header) in headers.iter().enumerate() {
        let bytes = contents(index)?;
        let flags = number(header, 8, 8);
        if flags & ALLOC == 0 || bytes.is_empty() {
            continue;
        }
        if flags & COMPRESSED != 0 {
            return Err(format!("its section {index} is compressed"));
        }
        let name = name(names, number(header, 0, 4), b"\0");
        sections.push(Section {
            name: name.ok_or_else(|| format!("its section {index} has no name"))?,
            kind: match (flags & EXECUTE != 0, flags & WRITE != 0) {
                (true, _) => Kind::Code,
                (false, true) => Kind::Writable,
                (false, false) => Kind::ReadOnly,
            },
            bytes,
        });
    }
    Ok(sections)
}

/// The name and the contents of every member of an archive, but symbol tables and long names.
fn members(bytes: &[u8]) -> Result<Vec<(String, &[u8])>, String> {
    let mut rest = &bytes[ARCHIVE.len()..];
    let mut long_names: &[u8] = &[];
    let mut members = Vec::new();
    while !rest.is_empty() {
        let header = part(rest, 0, MEMBER_HEADER).ok_or("a member's header is cut short")?;
        let text = |from, to| {
            String::from_utf8_lossy(&header[from..to])
                .trim_end()
                .to_owned()
        };
        let (short, size) = (text(0, 16), text(48, 58));
        let size = size.parse::<u64>().ok();
        let size = size.filter(|_| header.ends_with(MEMBER_END));
        let size = size.ok_or("a member's header is none of ar's")?;
        let contents = part(rest, MEMBER_HEADER, size);
        let contents = contents.ok_or_else(|| format!("its member {short} is cut short"))?;
        match short.as_str() {
            "/" | "/SYM64/" => {}
            "//" => long_names = contents,
            _ => {
                let name = match short.strip_prefix('/') {
                    None => Some(short.trim_end_matches('/').to_owned()),
                    Some(from) => from
                        .parse()
                        .ok()
                        .and_then(|from| name(long_names, from, b"/\n")),
                };
                let name = name.ok_or_else(|| format!("its member {short} has no name"))?;
                members.push((name, contents));
            }
        }
        // A member begins at an even place; after the last there may be no byte for that.
        let next = MEMBER_HEADER as usize + contents.len().next_multiple_of(2);
        rest = rest.get(next..).unwrap_or(&[]);
    }
    Ok(members)
}

/// The loaded sections of a file's bytes, of every member where it is an archive.
///
/// # Errors
///
/// Where it is none of these for x86-64, a part is not in the file, or it has no loaded section.
pub fn of(bytes: &[u8]) -> Result<Vec<Section<'_>>, String> {
    let mut sections = Vec::new();
    if bytes.starts_with(ARCHIVE) {
        for (member, bytes) in members(bytes)? {
            let inside = of_object(bytes).map_err(|why| format!("its member {member}: {why}"))?;
            sections.extend(inside.into_iter().map(|section| Section {
                name: format!("{member}, {}", section.name),
                ..section
            }));
        }
    } else {
        sections = of_object(bytes)?;
    }
    if sections.is_empty() {
        return Err("nothing in it is loaded".to_owned());
    }
    Ok(sections)
}
