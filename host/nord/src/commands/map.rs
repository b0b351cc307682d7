//! The picture of an image, for a terminal and as an SVG file.

use crate::answers::{done, Answer, Call};
use crate::args::{Ask, Colour};
use crate::failure::Failure;
use crate::volume::{self, Holder, Volume};
use crate::volume_json::{self, Listed};
use crate::{map, output};
use console::Term;
use serde::Serialize;
use std::path::Path;

/// Characters in a line where there is no terminal.
const WIDTH: usize = 80;

pub fn map(image: &[u16], at: &Ask, svg: Option<&Path>, width: Option<u32>, colour: Colour) -> Result<Answer, Failure> {
    done(proved::check(image), Call::Check, "")?;
    let (volume, holders) = (volume::read(image), volume::holders(image));
    // For people alone no object of so many holders is made.
    let json = |output: Option<&Path>| at.json.then(|| Mapped::of(&volume, &holders, output));
    match svg {
        Some(path) => {
            output::save(path, &at.image, map::svg(&volume, &holders).as_bytes())?;
            Ok(Answer::new(
                format!("map of {} in {}", volume.name, path.display()),
                json(Some(path)),
            ))
        }
        None => {
            let text = map::text(&volume, &holders, columns(width), coloured(colour));
            Ok(Answer::of(text, json(None)))
        }
    }
}

/// The width that is wanted, else the terminal's.
pub fn columns(width: Option<u32>) -> usize {
    match width {
        Some(width) => width as usize,
        None => Term::stdout().size_checked().map_or(WIDTH, |(_, columns)| columns.into()),
    }
}

/// By default colours are for a terminal whose user has not set NO_COLOR.
pub fn coloured(colour: Colour) -> bool {
    match colour {
        Colour::Always => true,
        Colour::Never => false,
        Colour::Auto => Term::stdout().is_term() && std::env::var_os("NO_COLOR").is_none(),
    }
}

/// What the listing has, the holder of each page, and where the picture is.
#[derive(Serialize)]
struct Mapped {
    #[serde(flatten)]
    listed: Listed,
    holders: Vec<volume_json::Holder>,
    output: Option<String>,
}

impl Mapped {
    fn of(volume: &Volume, holders: &[Holder], output: Option<&Path>) -> Mapped {
        Mapped {
            listed: volume.into(),
            holders: holders.iter().map(volume_json::Holder::from).collect(),
            output: output.map(|path| path.to_string_lossy().into_owned()),
        }
    }
}
