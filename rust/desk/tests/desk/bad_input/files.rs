//! Files that cannot be read or written.

use std::path::{Path, PathBuf};

use super::{assert_wrong, sound_file, READERS};
use crate::question::scratch;
use crate::run::run;

/// No file, a folder, what stands below no folder, and a file that opens and cannot be read.
fn unreadable() -> Vec<PathBuf> {
    vec![
        scratch("there is no such file"),
        scratch(""),
        sound_file("unreadable").join("below"),
        PathBuf::from("/proc/self/mem"),
        PathBuf::new(),
    ]
}

#[test]
fn images() {
    for reader in READERS {
        for file in unreadable() {
            let ran = run(&[Path::new(reader), &file]);
            assert_wrong(&ran, &format!("{reader} {}", file.display()));
        }
    }
}

#[test]
fn magazine_lists() {
    let image = sound_file("magazine_lists");
    for reader in READERS {
        for file in unreadable() {
            let list = Path::new("--magazines");
            let ran = run(&[Path::new(reader), &image, list, &file]);
            assert_wrong(&ran, &format!("{reader} --magazines {}", file.display()));
        }
    }
}

/// A folder that is not there, a folder, no name, and a device that is full.
#[test]
fn pictures() {
    let image = sound_file("pictures");
    let files = [
        scratch("there is no such folder").join("map.svg"),
        scratch(""),
        image.join("below"),
        PathBuf::new(),
        PathBuf::from("/dev/full"),
    ];
    for file in files {
        let (map, option) = (Path::new("map"), Path::new("--svg"));
        let ran = run(&[map, &image, option, &file]);
        assert_wrong(&ran, &format!("--svg {}", file.display()));
    }
}
