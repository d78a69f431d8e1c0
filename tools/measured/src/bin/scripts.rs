//! Writes the scripts of a group to a folder: `scripts FOLDER bench` or `scripts FOLDER N n m p`.
//!
//! Kind number i has the files i.with, i.without and i.lines, the numbers of its lines. `long` and `short` are whole periods, `bad.long` and
//! `bad.short` malformed lines. Standard output has a line for each kind: its number, its answer and its name.

use std::path::Path;
use std::{env, fs, io};

use measured::group::{Group, Law};
use measured::kinds::{normal, KINDS};
use measured::script::Script;

fn main() -> io::Result<()> {
    let words: Vec<String> = env::args().skip(1).collect();
    let [folder, sizes @ ..] = words.as_slice() else {
        return Err(io::Error::other("scripts FOLDER bench | N n m p"));
    };
    let group = group(sizes).ok_or_else(|| io::Error::other("no such group"))?;
    let folder = Path::new(folder);
    write_kinds(folder, &group)?;
    write_periods(folder, &group)?;
    write_malformed(folder, &group)
}

fn group(sizes: &[String]) -> Option<Group> {
    if sizes == ["bench"] {
        return Some(Group {
            boxes: 3,
            law: None,
        });
    }
    let sizes: Vec<usize> = sizes.iter().flat_map(|word| word.parse()).collect();
    let &[boxes, n, m, p] = sizes.as_slice() else {
        return None;
    };
    let law = Some(Law::new(n, m, p));
    Some(Group { boxes, law })
}

fn write_kinds(folder: &Path, group: &Group) -> io::Result<()> {
    for (kind, number) in KINDS.iter().zip(1..) {
        let mut script = Script::new(group);
        (kind.script)(&mut script, group);
        fs::write(folder.join(format!("{number}.with")), script.with())?;
        fs::write(folder.join(format!("{number}.without")), script.without())?;
        fs::write(folder.join(format!("{number}.lines")), script.measured())?;
        println!("{number} {} {}", kind.answer, kind.name);
    }
    Ok(())
}

fn write_periods(folder: &Path, group: &Group) -> io::Result<()> {
    for (name, share) in [("long", 1), ("short", 2)] {
        let mut script = Script::new(group);
        normal(&mut script, group, share);
        fs::write(folder.join(name), script.with())?;
    }
    Ok(())
}

fn write_malformed(folder: &Path, group: &Group) -> io::Result<()> {
    let mut script = Script::new(group);
    script.pad();
    fs::write(folder.join("bad.short"), script.with())?;
    while script.room() > 0 {
        script.play(group.malformed());
    }
    fs::write(folder.join("bad.long"), script.with())
}
