//! What a C header declares. Whatever is not expected in such a header is an
//! error, so that nothing in it is passed over.

use crate::words::{without_comments, Words};
use crate::{Argument, Constant, Declared, Function, Kind, Parameter, Wrapper};

const NUMBERS: [&str; 6] = [
    "size_t", "uint8_t", "uint32_t", "uint64_t", "int32_t", "int64_t",
];

/// What a header declares, each in the header's order.
pub fn declared(header: &str) -> Result<Declared, String> {
    let mut declared = Declared::default();
    let mut rest = String::new();
    for line in without_comments(header).lines() {
        if line.trim_start().starts_with('#') {
            declared.constants.extend(directive(line)?);
        } else {
            rest.push_str(line);
            rest.push('\n');
        }
    }
    let mut words = Words::of(&rest);
    while words.take(&["enum"]) || words.peek() == "struct" {
        match words.take(&["struct"]) {
            true => declared.settings.extend(settings(&mut words)?),
            false => declared.constants.extend(enumeration(&mut words)?),
        }
    }
    let braced = words.take(&["extern", "\"", "C", "\"", "{"]);
    while !words.is_empty() && words.peek() != "}" {
        match words.take(&["static", "inline"]) {
            true => declared.wrappers.push(wrapper(&mut words)?),
            false => declared.functions.push(prototype(&mut words)?),
        }
    }
    if braced {
        words.expect(&["}"])?;
    }
    if !words.is_empty() {
        return Err(format!("unexpected '{}'", words.peek()));
    }
    Ok(declared)
}

/// Directives that leave what follows as it is written. A macro that is a
/// number is given.
fn directive(line: &str) -> Result<Option<Constant>, String> {
    let line = line.trim();
    let words: Vec<&str> = line.split_whitespace().collect();
    match words.as_slice() {
        ["#include", "<stddef.h>" | "<stdint.h>"] => Ok(None),
        ["#ifdef", "__cplusplus"] | ["#ifndef", "WINDER_H"] | ["#endif"] => Ok(None),
        ["#define", name, value] if name.starts_with("WINDER_") => {
            let name = name.to_string();
            Ok(value.parse().ok().map(|value| Constant { name, value }))
        }
        ["#define", "WINDER_H"] => Ok(None),
        _ => Err(format!("unexpected '{line}'")),
    }
}

/// The constants of an enum, each with its number.
fn enumeration(words: &mut Words) -> Result<Vec<Constant>, String> {
    words.name()?;
    words.expect(&["{"])?;
    let mut constants = Vec::new();
    loop {
        let name = words.name()?;
        words.expect(&["="])?;
        let value = words.number()?;
        constants.push(Constant { name, value });
        if words.take(&["}", ";"]) {
            return Ok(constants);
        }
        words.expect(&[","])?;
    }
}

/// The fields of the struct of settings.
fn settings(words: &mut Words) -> Result<Vec<Parameter>, String> {
    words.expect(&["winder_settings", "{"])?;
    let mut fields = Vec::new();
    while !words.take(&["}", ";"]) {
        fields.push(parameter(words)?);
        words.expect(&[";"])?;
    }
    Ok(fields)
}

fn prototype(words: &mut Words) -> Result<Function, String> {
    let result = number(words)?;
    let name = words.name()?;
    words.expect(&["("])?;
    let parameters = match words.take(&["void", ")"]) {
        true => Vec::new(),
        false => parameters(words)?,
    };
    words.expect(&[";"])?;
    Ok(Function {
        name,
        parameters,
        result,
    })
}

/// A function that takes a struct of settings and returns what another gives.
fn wrapper(words: &mut Words) -> Result<Wrapper, String> {
    let result = number(words)?;
    let name = words.name()?;
    words.expect(&["("])?;
    words.expect(&["const", "struct", "winder_settings", "*", "settings", ","])?;
    let parameters = parameters(words)?;
    words.expect(&["{", "return"])?;
    let called = words.name()?;
    words.expect(&["("])?;
    let mut arguments = vec![argument(words)?];
    while words.take(&[","]) {
        arguments.push(argument(words)?);
    }
    words.expect(&[")", ";", "}"])?;
    Ok(Wrapper {
        name,
        parameters,
        result,
        called,
        arguments,
    })
}

fn argument(words: &mut Words) -> Result<Argument, String> {
    match words.take(&["settings", "-", ">"]) {
        true => words.name().map(Argument::Setting),
        false => words.name().map(Argument::Parameter),
    }
}

/// Parameters up to the bracket that closes them.
fn parameters(words: &mut Words) -> Result<Vec<Parameter>, String> {
    let mut parameters = vec![parameter(words)?];
    while words.take(&[","]) {
        parameters.push(parameter(words)?);
    }
    words.expect(&[")"])?;
    Ok(parameters)
}

fn parameter(words: &mut Words) -> Result<Parameter, String> {
    let constant = words.take(&["const"]);
    let number = number(words)?;
    let pointer = words.take(&["*"]);
    let name = words.name()?;
    let kind = if pointer {
        Kind::Pointer { number, constant }
    } else if words.take(&["["]) {
        let places = words.number()?;
        words.expect(&["]"])?;
        Kind::Array {
            number,
            places,
            constant,
        }
    } else if constant {
        return Err(format!("{name}: const by value"));
    } else {
        Kind::Value { number }
    };
    Ok(Parameter { name, kind })
}

fn number(words: &mut Words) -> Result<String, String> {
    let name = words.name()?;
    if NUMBERS.contains(&name.as_str()) {
        return Ok(name);
    }
    Err(format!("unexpected type '{name}'"))
}
