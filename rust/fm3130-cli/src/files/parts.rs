// SPDX-License-Identifier: Apache-2.0
//! The files that a device is made of: an image and a memory.

use std::fmt;
use std::path::Path;

use fm3130::family::{Select, Size};
use fm3130::IMAGE_BYTES;

use super::{exists, plan, read_at_most};
use crate::chip::{Chip, Part, Refused};
use crate::failure::{Failure, Outcome};

/// Bytes of a part, and whether a file gave them.
pub struct Loaded {
    /// The part's bytes.
    pub bytes: Vec<u8>,
    /// True when there is no such file, so that the bytes are those of a fresh device.
    pub is_fresh: bool,
}

/// The image of a part in a file, tested; or the fresh image if there is no such file.
pub fn load_image(path: &Path, part: Part) -> Outcome<Loaded> {
    let fresh = Chip::fresh(part);
    let loaded = load(path, IMAGE_BYTES, fresh.image(), part.wrong_image())?;
    Chip::from_parts(part, &loaded.bytes, fresh.memory())
        .map_err(|refusal| refused_image(path, part, &loaded.bytes, refusal))?;
    Ok(loaded)
}

/// An image that a part refuses; if it is another part's, that is the reason.
fn refused_image(path: &Path, part: Part, image: &[u8], refusal: Refused) -> Failure {
    match part.other_owner(image) {
        None => Failure::of_refusal(path, refusal),
        Some(owner) => Failure::Refused(format!(
            "{}: it is the image of {owner}, not of an {part}: {refusal}",
            path.display()
        )),
    }
}

/// The memory of a part in a file, tested; or an empty memory if there is no such file.
pub fn load_memory(path: &Path, part: Part) -> Outcome<Loaded> {
    let length = part.memory_bytes();
    load(path, length, &vec![0; length], part.wrong_memory())
}

/// The images or the memories of a set in a file, one after the other, held to its plan; or those of fresh devices if
/// there is no such file.
pub fn load_of_set(path: &Path, fresh: &[u8], members: &[(Size, Select)]) -> Outcome<Loaded> {
    if exists(path)? {
        plan::must_hold(path, members)?;
    }
    let wanted = format!("a set of {} has {}", members.len(), fresh.len());
    load(path, fresh.len(), fresh, wanted)
}

/// The bytes of a file that must have a length; or others if there is no such file.
fn load(
    path: &Path,
    length: usize,
    otherwise: &[u8],
    refusal: impl fmt::Display,
) -> Outcome<Loaded> {
    if !exists(path)? {
        return Ok(Loaded {
            bytes: otherwise.to_vec(),
            is_fresh: true,
        });
    }
    if !path.is_file() {
        return Err(Failure::Files(format!(
            "{}: not a regular file",
            path.display()
        )));
    }
    let bytes = read_at_most(path, length)?;
    if bytes.len() != length {
        return Err(wrong_length(path, bytes.len(), length, refusal));
    }
    Ok(Loaded {
        bytes,
        is_fresh: false,
    })
}

/// Says how long the file is and how long it should be.
fn wrong_length(path: &Path, found: usize, wanted: usize, refusal: impl fmt::Display) -> Failure {
    let found = if found > wanted {
        format!("more than {wanted}")
    } else {
        found.to_string()
    };
    Failure::Refused(format!(
        "{}: the file has {found} bytes: {refusal}",
        path.display()
    ))
}
