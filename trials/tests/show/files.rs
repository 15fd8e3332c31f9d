//! Pages in files, and the commands that write them.

use crate::EVENING;
use std::fs;
use std::os::unix::fs::{symlink, PermissionsExt};
use std::path::Path;
use std::process::{Command, Output};
use trials::folder::Folder;
use trials::show::put::put;

fn trials(words: &[&str]) -> Output {
    Command::new(env!("CARGO_BIN_EXE_trials")).args(words).output().expect("the command runs")
}

fn folder() -> Folder {
    Folder::new("show").expect("a folder")
}

/// Nothing else is left in the folder.
fn only(folder: &Folder, names: &[&str]) {
    let entries = fs::read_dir(folder.path()).expect("a folder");
    let mut found: Vec<String> =
        entries.map(|entry| entry.unwrap().file_name().into_string().unwrap()).collect();
    found.sort();
    assert_eq!(found, names);
}

#[test]
fn a_page_is_put_in_its_place() {
    let folder = folder();
    let path = folder.path().join("page.html");
    put(&path, b"old").unwrap();
    fs::set_permissions(&path, fs::Permissions::from_mode(0o640)).unwrap();
    let link = folder.path().join("link.html");
    symlink(&path, &link).unwrap();
    put(&link, b"new").unwrap();
    assert_eq!(fs::read(&path).unwrap(), b"new");
    assert_eq!(fs::metadata(&path).unwrap().permissions().mode() & 0o777, 0o640);
    assert!(fs::symlink_metadata(&link).unwrap().is_symlink());
    only(&folder, &["link.html", "page.html"]);
}

/// A folder, a folder that is not there, a device: the last is written to and stays one.
#[test]
fn what_is_no_file() {
    let folder = folder();
    assert!(put(folder.path(), b"page").is_err());
    assert!(put(&folder.path().join("none/page.html"), b"page").is_err());
    assert!(put(Path::new(""), b"page").is_err());
    assert!(put(Path::new("/dev/full"), b"page").is_err());
    put(Path::new("/dev/null"), b"page").unwrap();
    assert!(!fs::metadata("/dev/null").unwrap().is_file());
    only(&folder, &[]);
}

/// A command that fails leaves the page that there is.
#[test]
fn a_failed_command_leaves_the_page() {
    let folder = folder();
    let [script, answers, page] = ["script", "answers", "page.html"].map(|name| folder.file(name));
    fs::write(&page, "old").unwrap();
    fs::write(&script, EVENING).unwrap();
    let missing = trials(&["picture", "--to", &page, &script, &answers]);
    assert_eq!(missing.status.code(), Some(1));
    assert!(String::from_utf8_lossy(&missing.stderr).contains("answers: No such file"));
    assert_eq!(fs::read_to_string(&page).unwrap(), "old");
    let nowhere = folder.file("none/page.html");
    fs::write(&answers, include_str!("../../scripts/evening.answers")).unwrap();
    let unwritten = trials(&["picture", "--to", &nowhere, &script, &answers]);
    assert_eq!(unwritten.status.code(), Some(1));
    assert!(String::from_utf8_lossy(&unwritten.stderr).contains("could not be written"));
    only(&folder, &["answers", "page.html", "script"]);
}

/// The page of a program that errs is written, and the status and standard error tell it.
#[test]
fn a_broken_evening_has_its_page_and_its_status() {
    let folder = folder();
    let [script, answers, page] = ["script", "answers", "page.html"].map(|name| folder.file(name));
    fs::write(&script, EVENING).unwrap();
    let right = include_str!("../../scripts/evening.answers");
    fs::write(&answers, right.replace(" 14 62 ", " 14 53 ")).unwrap();
    let broken = trials(&["picture", "--to", &page, &script, &answers]);
    assert_eq!(broken.status.code(), Some(1));
    let told = String::from_utf8_lossy(&broken.stderr).into_owned();
    assert!(told.contains("feeder 1 line 1 has 5, limit 4"), "{told}");
    assert!(fs::read_to_string(&page).unwrap().contains("verdict red"));
    let shown = trials(&["show", &script, &answers]);
    assert_eq!(shown.status.code(), Some(1));
    assert!(String::from_utf8_lossy(&shown.stdout).contains("BROKEN:"));
}
