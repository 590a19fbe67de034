//! Draws a store from its saved records, and its places if they are given. Ends with 0 if the records are sound, with 1 if
//! they are not, with 2 if nothing could be judged.

use rowstore_host::judge::{fault, Records};
use rowstore_host::picture::{svg, text, Picture};
use std::io::Write;
use std::path::PathBuf;
use std::process::ExitCode;
use std::{env, fs};

const USAGE: &str = "\
usage: inspect RECORDS [--places PLACES] [--svg PICTURE]
       make inspect FILE=RECORDS [PLACES=PLACES] [SVG=PICTURE]
RECORDS and PLACES are files with the bytes of a store's two buffers; PICTURE is the SVG file to write.";

#[derive(Default)]
struct Asked {
    records: PathBuf,
    places: Option<PathBuf>,
    svg: Option<PathBuf>,
}

/// The words of the command line; none if they are not as the usage says.
fn asked() -> Option<Asked> {
    let mut asked = Asked::default();
    let mut records = None;
    let mut words = env::args_os().skip(1);
    while let Some(word) = words.next() {
        match word.to_str() {
            Some("--places") if asked.places.is_none() => asked.places = Some(words.next()?.into()),
            Some("--svg") if asked.svg.is_none() => asked.svg = Some(words.next()?.into()),
            Some(other) if other.starts_with("--") => return None,
            _ if records.is_none() => records = Some(word),
            _ => return None,
        }
    }
    asked.records = records?.into();
    Some(asked)
}

fn read(path: &PathBuf) -> Result<Vec<u8>, String> {
    fs::read(path).map_err(|error| format!("{}: {error}", path.display()))
}

/// Whether the records are sound; or why that cannot be told.
fn inspect(asked: &Asked) -> Result<bool, String> {
    let bytes = read(&asked.records)?;
    let places = asked.places.as_ref().map(read).transpose()?;
    let mut out = std::io::stdout().lock();
    let mut show = |words: &str| out.write_all(words.as_bytes()).map_err(|e| e.to_string());
    if let Some(fault) = fault(&bytes) {
        show(&format!("not sound, {fault}\n"))?;
        return Ok(false);
    }
    let records = Records::of(&bytes).ok_or("sound records of a wrong length")?;
    let due = records.measures.places_len();
    if let Some(places) = places.as_ref().filter(|places| places.len() != due) {
        return Err(format!("places of {} bytes, not {due}", places.len()));
    }
    let picture = Picture::of(&records);
    show(&text(&picture, places.as_deref()))?;
    if let Some(path) = &asked.svg {
        fs::write(path, svg(&picture)).map_err(|error| format!("{}: {error}", path.display()))?;
    }
    Ok(true)
}

fn main() -> ExitCode {
    let Some(asked) = asked() else {
        eprintln!("{USAGE}");
        return ExitCode::from(2);
    };
    match inspect(&asked) {
        Ok(sound) => ExitCode::from(u8::from(!sound)),
        Err(error) => {
            eprintln!("inspect: {error}");
            ExitCode::from(2)
        }
    }
}
