//! Runs a script through a program, or through the second implementation's
//! library in this process.

use std::ffi::OsString;
use std::io::{Read, Write};
use std::path::Path;
use std::process::{Child, Command, Stdio};
use std::{env, thread};

use second::{fault, script};

use crate::generator::Script;

/// The programs of one implementation, each with its arguments.
pub struct Programs {
    bench: Vec<OsString>,
    rig: Vec<OsString>,
    /// The fault planted in it, if it is the second; none if empty.
    fault: &'static str,
}

impl Programs {
    pub fn at(bench: &str, rig: &str) -> Programs {
        Programs {
            bench: vec![bench.into()],
            rig: vec![rig.into()],
            fault: "",
        }
    }

    /// `bench` and `rig` in a folder.
    pub fn within(folder: &str) -> Programs {
        Programs {
            bench: vec![Path::new(folder).join("bench").into()],
            rig: vec![Path::new(folder).join("rig").into()],
            fault: "",
        }
    }

    /// This program itself, as `compare second bench` and `.. rig`: a fault
    /// can only be planted at the start of a process.
    pub fn own() -> Result<Programs, String> {
        let own = env::current_exe().map_err(|error| error.to_string())?;
        let with = |name: &str| vec![own.clone().into(), "second".into(), name.into()];
        Ok(Programs {
            bench: with("bench"),
            rig: with("rig"),
            fault: "",
        })
    }

    pub fn with_fault(self, fault: &'static str) -> Programs {
        Programs { fault, ..self }
    }

    /// Starts the program, hands it the script and gives what it prints.
    pub fn run(&self, script: &Script) -> Result<Vec<u8>, String> {
        let words = if script.is_rig {
            &self.rig
        } else {
            &self.bench
        };
        let failed = |what: String| format!("{}: {what}", words[0].to_string_lossy());
        let mut child = Command::new(&words[0])
            .args(&words[1..])
            .env(fault::VARIABLE, self.fault)
            .stdin(Stdio::piped())
            .stdout(Stdio::piped())
            // What rig says there of a first line is not compared.
            .stderr(Stdio::null())
            .spawn()
            .map_err(|error| failed(error.to_string()))?;
        let output = talk(&mut child, &script.input).map_err(failed)?;
        let status = child.wait().map_err(|error| failed(error.to_string()))?;
        if !status.success() {
            return Err(failed(status.to_string()));
        }
        Ok(output)
    }
}

/// Writes and reads at once, so that neither side waits for the other with a
/// full pipe.
pub fn talk(child: &mut Child, input: &[u8]) -> Result<Vec<u8>, String> {
    let mut to_child = child.stdin.take().ok_or("no standard input")?;
    let mut from_child = child.stdout.take().ok_or("no standard output")?;
    thread::scope(|scope| {
        // A program may end before it has read all: after a first line that
        // makes no group, and after line 500.
        scope.spawn(move || drop(to_child.write_all(input)));
        let mut output = Vec::new();
        match from_child.read_to_end(&mut output) {
            Ok(_) => Ok(output),
            Err(error) => Err(error.to_string()),
        }
    })
}

/// `compare search SEED` with a fault: the number of the script found.
pub fn own_search(seed: u64, fault: &str) -> Result<Option<usize>, String> {
    let own = env::current_exe().map_err(|error| error.to_string())?;
    let output = Command::new(own)
        .args(["search", &seed.to_string()])
        .env(fault::VARIABLE, fault)
        .output()
        .map_err(|error| error.to_string())?;
    let printed = String::from_utf8_lossy(&output.stdout);
    match (output.status.success(), printed.trim()) {
        (true, "none") => Ok(None),
        (true, number) => number.parse().map(Some).map_err(|_| number.to_string()),
        (false, _) => Err(String::from_utf8_lossy(&output.stderr).into_owned()),
    }
}

/// The second implementation's answer, in this process.
pub fn library(script: &Script) -> Vec<u8> {
    let mut output = Vec::new();
    let result = match script.is_rig {
        true => script::rig(&script.input[..], &mut output),
        false => script::bench(&script.input[..], &mut output),
    };
    result.expect("reading and writing in memory");
    output
}
