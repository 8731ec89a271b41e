//! What is read is not written over.

use std::fs;
use std::path::{Path, PathBuf};

use crate::run::run;

fn sample() -> PathBuf {
    Path::new(env!("CARGO_MANIFEST_DIR")).join("../../samples/relay.image")
}

/// A picture over the image that it is of, by another name of the file, is not written.
#[test]
fn picture_over_its_image() {
    let folder = Path::new(env!("CARGO_TARGET_TMPDIR"));
    let image = folder.join("only.image");
    fs::copy(sample(), &image).expect("a copy");
    let other_name = folder.join("..").join("tmp").join("only.image");
    let list = folder.join("only.list");
    fs::write(&list, "# no words").expect("a list");
    for out in [&image, &other_name, &list] {
        let arguments = ["map", "--magazines"].map(Path::new).to_vec();
        let arguments = [arguments, vec![&list, &image, Path::new("--svg"), out]].concat();
        let ran = run(&arguments);
        let why = "it is read, and would be written over";
        assert!(ran.stderr_text().contains(why), "{}", ran.stderr_text());
        assert_eq!((ran.status, ran.stdout.len()), (Some(3), 0));
    }
    let kept = fs::read(&image).expect("the image");
    assert_eq!(kept, fs::read(sample()).expect("a sample"));
    assert_eq!(fs::read(&list).expect("the list"), b"# no words");
}
