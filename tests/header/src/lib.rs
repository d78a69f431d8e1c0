//! Compares a C header, and declarations for Rust, with the functions that a
//! Rattle crate exports. Nothing else ties them: the linker knows names alone,
//! and no types.

#![forbid(unsafe_code)]

mod c;
mod rattle;
mod words;
mod wrappers;

pub use c::declared;
pub use rattle::{exported, imported};
pub use wrappers::wrapper_differences;

/// What a header declares.
#[derive(Clone, Debug, Default, PartialEq, Eq)]
pub struct Declared {
    pub functions: Vec<Function>,
    pub wrappers: Vec<Wrapper>,
    /// The fields of the struct of settings.
    pub settings: Vec<Parameter>,
    /// Of macros and enums.
    pub constants: Vec<Constant>,
}

/// A function as C sees it.
#[derive(Clone, Debug, PartialEq, Eq)]
pub struct Function {
    pub name: String,
    pub parameters: Vec<Parameter>,
    pub result: String,
}

/// An inline function that has its settings from a struct. Its parameters are
/// those after the struct.
#[derive(Clone, Debug, PartialEq, Eq)]
pub struct Wrapper {
    pub name: String,
    pub parameters: Vec<Parameter>,
    pub result: String,
    pub called: String,
    pub arguments: Vec<Argument>,
}

/// What a wrapper hands on: a field of the settings, or a parameter.
#[derive(Clone, Debug, PartialEq, Eq)]
pub enum Argument {
    Setting(String),
    Parameter(String),
}

#[derive(Clone, Debug, PartialEq, Eq)]
pub struct Parameter {
    pub name: String,
    pub kind: Kind,
}

/// What a parameter is. `number` is C's name of a number's type.
#[derive(Clone, Debug, PartialEq, Eq)]
pub enum Kind {
    Value {
        number: String,
    },
    Array {
        number: String,
        places: usize,
        constant: bool,
    },
    Pointer {
        number: String,
        constant: bool,
    },
}

#[derive(Clone, Debug, PartialEq, Eq)]
pub struct Constant {
    pub name: String,
    pub value: usize,
}

/// Each way in which the declared functions differ from the exported ones. A
/// header may list its functions in any order, each of them once.
pub fn differences(exported: &[Function], declared: &[Function]) -> Vec<String> {
    let mut found = Vec::new();
    for function in exported {
        let name = &function.name;
        match declared.iter().filter(|other| other.name == *name).count() {
            0 => found.push(format!("{name} is not declared")),
            1 => {}
            times => found.push(format!("{name} is declared {times} times")),
        }
    }
    for function in declared {
        match exported.iter().find(|other| other.name == function.name) {
            Some(other) => found.extend(difference(other, function)),
            None => found.push(format!("{} is not exported", function.name)),
        }
    }
    found
}

fn difference(exported: &Function, declared: &Function) -> Option<String> {
    if exported == declared {
        return None;
    }
    Some(format!(
        "{}: exported {exported:?}, declared {declared:?}",
        exported.name
    ))
}
