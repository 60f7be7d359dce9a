// SPDX-License-Identifier: Apache-2.0
//! `fm3130 mend`: an old image with an impossible date or time, put right.

use std::ffi::OsString;
use std::path::Path;

use fm3130::{Device, MEMORY_BYTES};

use crate::arguments::{wrong, Arguments, Options};
use crate::chip::Part;
use crate::failure::{Failure, Outcome};
use crate::files::{self, Replacement};
use crate::mending::Mended;
use crate::output::Output;

const OPTIONS: Options = Options {
    with_value: &["--image"],
    alone: &["--dry-run"],
};

/// Puts the image in a file right, and says what was changed.
pub fn command(words: Vec<OsString>) -> Outcome {
    let arguments = Arguments::sort(words, &OPTIONS)?;
    arguments.at_most(0)?;
    let Some(path) = arguments.path("--image") else {
        return Err(wrong("mend needs --image FILE"));
    };
    if files::is_output(&path) {
        return Err(wrong("--image takes the name of a file, and no -"));
    }
    let mended =
        Mended::of(read_device(&path)?).map_err(|refusal| Failure::of_refusal(&path, refusal))?;
    let is_written = mended.is_changed() && !arguments.has("--dry-run");
    // The new file stands beside the old one before anything is said, and takes its place last: so
    // whatever fails leaves the old one as it was.
    let replacement = match is_written {
        true => Some(replacement_of(&path, &mended.device)?),
        false => None,
    };
    let mut output = Output::new();
    for line in mended.lines() {
        output.line(&line)?;
    }
    output.line(&format!(
        "{}: {}",
        path.display(),
        summary(&mended, is_written)
    ))?;
    output.finish()?;
    files::commit_all(replacement.into_iter().collect())
}

/// The device whose image a file holds. Its memory is not asked for, and any will do.
fn read_device(path: &Path) -> Outcome<Device> {
    let loaded = files::load_image(path, Part::Fm3130)?;
    if loaded.is_fresh {
        return Err(Failure::Files(format!(
            "{}: there is no such file",
            path.display()
        )));
    }
    Device::from_parts(&loaded.bytes, &[0; MEMORY_BYTES])
        .map_err(|refusal| Failure::of_refusal(path, refusal))
}

/// The new file, written and not yet in its place.
fn replacement_of(path: &Path, device: &Device) -> Outcome<Replacement> {
    let mut file = Replacement::open(path)?;
    file.write(device.image())?;
    Ok(file)
}

/// What was done, in a line.
fn summary(mended: &Mended, is_written: bool) -> String {
    match (mended.is_changed(), is_written) {
        (false, _) => "registers and core are valid, nothing to put right".to_string(),
        (true, true) => format!("{} put right", mended.extent()),
        (true, false) => format!("{} to put right, nothing written", mended.extent()),
    }
}
