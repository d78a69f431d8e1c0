//! The functions that Rattle source exports and those that Rust source imports,
//! as C sees them: `&` is const, an array is passed by its address, and a slice
//! by its address and its length. A lifetime is nothing to C.

use crate::words::{without_comments, Words};
use crate::{Function, Kind, Parameter};

/// The functions that a file exports, in its order.
pub fn exported(source: &str) -> Result<Vec<Function>, String> {
    let mut words = Words::of(&without_comments(source));
    let mut functions = Vec::new();
    while !words.is_empty() {
        if words.take(&["#", "[", "unsafe", "(", "no_mangle", ")", "]"]) {
            words.expect(&["pub", "extern", "\"", "C", "\"", "fn"])?;
            functions.push(function(&mut words)?);
        } else if words.take(&["extern"]) {
            return Err("extern without #[unsafe(no_mangle)]".to_string());
        } else {
            words.next();
        }
    }
    Ok(functions)
}

/// The functions of a file that has one block of them and nothing else.
pub fn imported(source: &str) -> Result<Vec<Function>, String> {
    let mut words = Words::of(&without_comments(source));
    words.expect(&["extern", "\"", "C", "\"", "{"])?;
    let mut functions = Vec::new();
    while !words.take(&["}"]) {
        words.expect(&["pub", "fn"])?;
        functions.push(function(&mut words)?);
        words.expect(&[";"])?;
    }
    match words.is_empty() {
        true => Ok(functions),
        false => Err(format!("unexpected '{}'", words.peek())),
    }
}

fn function(words: &mut Words) -> Result<Function, String> {
    let name = words.name()?;
    words.take(&["<", "'", "a", ">"]);
    words.expect(&["("])?;
    let mut parameters = Vec::new();
    while !words.take(&[")"]) {
        parameters.extend(parameter(words)?);
        if words.peek() != ")" {
            words.expect(&[","])?;
        }
    }
    words.expect(&["-", ">"])?;
    let result = number(words)?;
    Ok(Function {
        name,
        parameters,
        result,
    })
}

fn parameter(words: &mut Words) -> Result<Vec<Parameter>, String> {
    let name = words.name()?;
    words.expect(&[":"])?;
    if words.take(&["*"]) {
        let constant = !words.take(&["mut"]);
        if constant {
            words.expect(&["const"])?;
        }
        return Ok(vec![pointer(name, number(words)?, constant)]);
    }
    if !words.take(&["&"]) {
        let number = number(words)?;
        return Ok(vec![value(name, number)]);
    }
    words.take(&["'", "a"]);
    let constant = !words.take(&["mut"]);
    if !words.take(&["["]) {
        let number = number(words)?;
        return Ok(vec![pointer(name, number, constant)]);
    }
    let number = number(words)?;
    if words.take(&["]"]) {
        let length = value(format!("{name}_length"), "size_t".to_string());
        return Ok(vec![pointer(name, number, constant), length]);
    }
    words.expect(&[";"])?;
    let places = words.number()?;
    words.expect(&["]"])?;
    let kind = Kind::Array {
        number,
        places,
        constant,
    };
    Ok(vec![Parameter { name, kind }])
}

fn value(name: String, number: String) -> Parameter {
    let kind = Kind::Value { number };
    Parameter { name, kind }
}

fn pointer(name: String, number: String, constant: bool) -> Parameter {
    let kind = Kind::Pointer { number, constant };
    Parameter { name, kind }
}

/// C's name of a number's type.
fn number(words: &mut Words) -> Result<String, String> {
    let name = words.name()?;
    let in_c = match name.as_str() {
        "usize" => "size_t",
        "u8" => "uint8_t",
        "u32" => "uint32_t",
        "u64" => "uint64_t",
        "i32" => "int32_t",
        "i64" => "int64_t",
        _ => return Err(format!("unexpected type '{name}'")),
    };
    Ok(in_c.to_string())
}
