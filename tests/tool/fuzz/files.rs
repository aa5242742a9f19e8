//! Archives as the crate builds them, beside the model's.

use crate::held::same;
use model::archive::{judge, lay_out, strike, File};
use model::image;
use model::lookup::get_bytes;
use records::Source;
use resource_manager::{Archive, Database};

/// Puts files into an archive one after the other, each accepted or refused as the model would, and strikes them off again.
/// Gives how many were refused.
pub fn build(files: &[(String, Vec<u8>)]) -> Result<usize, String> {
    let mut archive = Archive::new();
    let mut kept: Vec<File> = Vec::new();
    for (name, body) in files {
        let mut more = kept.clone();
        more.push(File { name: name.clone().into_bytes(), body: body.clone() });
        more.sort_by(|a, b| a.name.cmp(&b.name));
        let good = judge(&lay_out(&more)).is_some();
        same(&format!("insert of {name:?}, {} bytes", body.len()), archive.insert(name, body).is_ok(), good)?;
        if good {
            kept = more;
        }
        same("archive", archive.as_bytes(), &lay_out(&kept))?;
    }
    let refused = files.len() - kept.len();
    while let Some(file) = kept.pop() {
        let name = String::from_utf8(file.name).expect("a name in ASCII");
        same("remove", archive.remove(&name), Some(file.body))?;
        same("archive", archive.as_bytes(), &lay_out(&kept))?;
    }
    Ok(refused)
}

/// A source's archive as the crate builds it, from its files in another order; none if it is not laid out.
pub fn archive(source: &Source) -> Result<Option<Archive>, String> {
    let Some(good) = judge(&source.archive) else { return Ok(None) };
    let files = good.files.iter().rev().map(|file| (String::from_utf8_lossy(&file.name), &file.body));
    let archive = Archive::from_files(files).map_err(|error| error.to_string())?;
    same("archive", archive.as_bytes(), &source.archive)?;
    Ok(Some(archive))
}

/// The value of a query with a file and with it struck off, or the refusal's number.
type Compared = Result<Option<(Option<Vec<u8>>, Option<Vec<u8>>)>, u8>;

/// What the model answers to a comparison: none if there is no file with that number.
pub fn compared(source: &Source, which: usize, name: &[u8], class: &[u8]) -> Compared {
    let value = |archive: &[u8]| -> Result<Option<Vec<u8>>, u8> {
        let (mut contents, mut bodies) = records::buffers();
        image::read(&mut contents, &mut bodies, &source.texts(), archive, source.depth).map_err(|refusal| refusal.number())?;
        let found = get_bytes(&contents, &bodies, name, class).map_err(|refusal| refusal.number())?;
        Ok(found.map(|place| place.of(&bodies).to_vec()))
    };
    let count = judge(&source.archive).map_or(0, |archive| archive.files.len());
    if which >= count {
        return Ok(None);
    }
    Ok(Some((value(&source.archive)?, value(&strike(&source.archive, which))?)))
}

/// The crate's entries, as the records list them.
pub fn listed(database: &Database) -> Vec<(Vec<u8>, Vec<u8>)> {
    database.entries().map(|entry| (entry.key.to_vec(), entry.value.to_vec())).collect()
}

pub fn described(source: &Source) -> String {
    let files = judge(&source.archive).map(|archive| archive.files);
    let archive = match files {
        Some(files) => {
            let file = |file: &File| format!("\"{}\" => \"{}\"", file.name.escape_ascii(), file.body.escape_ascii());
            format!("files [{}]", files.iter().map(file).collect::<Vec<_>>().join("; "))
        }
        None => format!("archive \"{}\"", source.archive.escape_ascii()),
    };
    let texts: Vec<String> = source.texts().iter().map(|text| format!("\"{}\"", text.escape_ascii())).collect();
    format!("texts [{}], {archive}", texts.join("; "))
}
