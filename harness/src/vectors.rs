//! A folder of texts with the whole output of the program that each is for: NAME.in and NAME.out.

use std::fs;
use std::io;
use std::path::Path;

use crate::subject::Subject;

/// Compares every text of the folder that the subject has a program for; tells how many there are and which of them differ.
pub fn compare(folder: &Path, subject: &dyn Subject) -> io::Result<(usize, Vec<String>)> {
    let mut names = Vec::new();
    for entry in fs::read_dir(folder)? {
        let name = entry?.file_name().to_string_lossy().into_owned();
        if let Some(name) = name.strip_suffix(".in") {
            names.push(name.to_string());
        }
    }
    names.sort();
    let mut compared = 0;
    let mut wrong = Vec::new();
    for name in names {
        let input = fs::read(folder.join(format!("{name}.in")))?;
        let answer = if name.contains("session") { Some(subject.dispatch(&input)) } else { subject.calendar(&input) };
        if let Some(answer) = answer {
            compared += 1;
            if answer? != fs::read(folder.join(format!("{name}.out")))? {
                wrong.push(name);
            }
        }
    }
    Ok((compared, wrong))
}
