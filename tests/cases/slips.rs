//! The rule of document 02 (iii) as a tired engineer may get it wrong: a slip each, to be told from the right rule.

use model::archive::{folder, is_name_part, judge, Archive};
use model::limits::FILE_NAME_BYTES;
use model::paths::{join, PART_BYTES, PATH_BYTES};

#[derive(Clone, Copy, Debug, PartialEq, Eq, PartialOrd, Ord)]
pub enum Slip {
    /// Dots mean nothing, as before the request.
    NoDots,
    /// `..` at the root stays there.
    RootStays,
    LastDot,
    LastTwoDots,
    EmptyPartSkipped,
    /// An empty part is no fault if `..` removes it.
    EmptyPartRemoved,
    /// `..` removes parts of the name, and none of the folder.
    NameAlone,
    /// `.` is a part that `..` removes.
    DotRemoved,
    ThreeDots,
    /// A part that begins with two dots goes up.
    TwoDotsBegin,
    /// The 96 bytes are asked of the name as it stands.
    BoundOnTheName,
    BoundOnTheWay,
    /// A result of over 96 bytes is cut off.
    ResultCut,
    OddPart,
    LongPart,
    LongPath,
    ThroughAFile,
    ThroughNoFolder,
    /// The folder of a found file is that of the way, without its dots.
    FolderOfTheWay,
    /// The folder of a found file is that of the text that includes it.
    FolderOfTheText,
}

/// Every slip, in words.
pub const SLIPS: [(Slip, &str); 20] = [
    (Slip::NoDots, "dots mean nothing"),
    (Slip::RootStays, "above the root is the root"),
    (Slip::LastDot, "a last part of one dot is dropped"),
    (Slip::LastTwoDots, "a last part of two dots is followed"),
    (Slip::EmptyPartSkipped, "an empty part is skipped"),
    (Slip::EmptyPartRemoved, "an empty part may be removed"),
    (Slip::NameAlone, "two dots over the name alone"),
    (Slip::DotRemoved, "two dots remove one dot"),
    (Slip::ThreeDots, "three dots go up twice"),
    (Slip::TwoDotsBegin, "a part that begins with two dots goes up"),
    (Slip::BoundOnTheName, "96 bytes asked of the name"),
    (Slip::BoundOnTheWay, "96 bytes asked on the way"),
    (Slip::ResultCut, "a result cut at 96 bytes"),
    (Slip::OddPart, "nothing by an odd part"),
    (Slip::LongPart, "nothing by a part over 255 bytes"),
    (Slip::LongPath, "nothing by a path over 4,000 bytes"),
    (Slip::ThroughAFile, "nothing through a file"),
    (Slip::ThroughNoFolder, "nothing through what is no folder"),
    (Slip::FolderOfTheWay, "a found file's folder is the way's"),
    (Slip::FolderOfTheText, "a found file's folder is its includer's"),
];

/// What an include of a name from a folder looks for with this slip, and the folder of the file that is found.
pub fn slipped(slip: Option<Slip>, archive: &Archive, from: &[u8], name: &[u8]) -> Option<(Vec<u8>, Vec<u8>)> {
    let is = |of: Slip| slip == Some(of);
    let path = if is(Slip::NameAlone) { name.to_vec() } else { join(from, name) };
    let mut parts: Vec<&[u8]> = path.split(|b| *b == b'/').collect();
    if is(Slip::EmptyPartSkipped) {
        parts.retain(|part| !part.is_empty());
    }
    let allowed = match *parts.last()? {
        b"" => false,
        b"." => is(Slip::LastDot),
        b".." => is(Slip::LastTwoDots),
        _ => true,
    };
    let too_long = is(Slip::BoundOnTheName) && name.len() > FILE_NAME_BYTES || is(Slip::LongPath) && path.len() > PATH_BYTES;
    if !allowed || too_long {
        return None;
    }
    let mut left: Vec<&[u8]> = Vec::new();
    for (number, part) in parts.iter().enumerate() {
        match *part {
            b"." if !is(Slip::NoDots) && !is(Slip::DotRemoved) => {}
            b".." if !is(Slip::NoDots) => match left.pop() {
                Some(_) => {}
                None if is(Slip::RootStays) => {}
                None => return None,
            },
            b"..." if is(Slip::ThreeDots) => drop((left.pop()?, left.pop()?)),
            part if is(Slip::TwoDotsBegin) && part.starts_with(b"..") => drop(left.pop()?),
            b"" if !is(Slip::EmptyPartRemoved) => return None,
            part => {
                left.push(part);
                let is_last = number + 1 == parts.len();
                let is_wrong = match slip {
                    Some(Slip::OddPart) => !is_name_part(part),
                    Some(Slip::LongPart) => part.len() > PART_BYTES,
                    Some(Slip::BoundOnTheWay) => left.join(&b'/').len() > FILE_NAME_BYTES,
                    Some(Slip::ThroughAFile) => !is_last && archive.find(&left.join(&b'/')).is_some(),
                    Some(Slip::ThroughNoFolder) => !is_last && !has_folder(archive, &left.join(&b'/')),
                    _ => false,
                };
                if is_wrong {
                    return None;
                }
            }
        }
    }
    if left.iter().any(|part| part.is_empty()) {
        return None;
    }
    if is(Slip::DotRemoved) {
        left.retain(|part| *part != b".");
    }
    let mut target = left.join(&b'/');
    if is(Slip::NameAlone) {
        target = join(from, &target);
    }
    if is(Slip::ResultCut) {
        target.truncate(FILE_NAME_BYTES);
    }
    if target.len() > FILE_NAME_BYTES {
        return None;
    }
    let after = match slip {
        Some(Slip::FolderOfTheWay) => {
            let way: Vec<&[u8]> =
                parts[..parts.len() - 1].iter().filter(|part| **part != b"." && **part != b"..").copied().collect();
            way.join(&b'/')
        }
        Some(Slip::FolderOfTheText) => from.to_vec(),
        _ => folder(&target).to_vec(),
    };
    Some((target, after))
}

fn has_folder(archive: &Archive, folder: &[u8]) -> bool {
    archive.files.iter().any(|file| file.name.starts_with(&join(folder, b"")))
}

/// What each slip would look for, whatever the archive holds.
pub(crate) fn decoys(from: &[u8], name: &[u8]) -> Vec<Vec<u8>> {
    let archive = judge(&[0, 0]).expect("the archive of no files");
    SLIPS.iter().filter_map(|(slip, _)| slipped(Some(*slip), &archive, from, name)).map(|(target, _)| target).collect()
}
