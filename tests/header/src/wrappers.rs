//! Whether each wrapper of a header hands everything to its own place.

use crate::{Argument, Declared, Function, Kind, Parameter, Wrapper};

/// Each way in which a wrapper differs from the function that it calls. A
/// wrapper has that function's name and `_with` after it.
pub fn wrapper_differences(declared: &Declared) -> Vec<String> {
    let mut found = Vec::new();
    for wrapper in &declared.wrappers {
        let name = &wrapper.name;
        if *name != format!("{}_with", wrapper.called) {
            found.push(format!("{name} calls {}", wrapper.called));
        }
        let call = called_with(wrapper, &declared.settings);
        if !declared.functions.contains(&call) {
            found.push(format!("{name}: there is no {call:?}"));
        }
    }
    found
}

/// The function that a wrapper's call is right for: each argument stands for
/// a parameter of its name and kind.
fn called_with(wrapper: &Wrapper, settings: &[Parameter]) -> Function {
    let named = |parameters: &[Parameter], name: &String| {
        let found = parameters.iter().find(|parameter| parameter.name == *name);
        found.cloned()
    };
    let place = |argument: &Argument| match argument {
        Argument::Setting(name) => named(settings, name).map(through_const),
        Argument::Parameter(name) => named(&wrapper.parameters, name),
    };
    Function {
        name: wrapper.called.clone(),
        parameters: wrapper.arguments.iter().filter_map(place).collect(),
        result: wrapper.result.clone(),
    }
}

/// A field, seen through a pointer to const.
fn through_const(field: Parameter) -> Parameter {
    let kind = match field.kind {
        Kind::Array { number, places, .. } => Kind::Array {
            number,
            places,
            constant: true,
        },
        other => other,
    };
    Parameter { kind, ..field }
}
