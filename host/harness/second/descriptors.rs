//! Default descriptors: what each type becomes on the JVM.

use super::members::{Constructor, Function, Parameter};
use super::mistakes::{planted, Mistake};
use super::names::Names;
use super::types::{Projection, Type};

#[derive(Clone, Copy, PartialEq)]
enum Position {
    Parameter,
    Return,
    Element,
}

const SUSPENDS: u64 = 1 << 13;

/// The eight primitives: name, letter, box.
const PRIMITIVES: [(&str, &str, &str); 8] = [
    ("kotlin/Boolean", "Z", "Ljava/lang/Boolean;"),
    ("kotlin/Byte", "B", "Ljava/lang/Byte;"),
    ("kotlin/Char", "C", "Ljava/lang/Character;"),
    ("kotlin/Short", "S", "Ljava/lang/Short;"),
    ("kotlin/Int", "I", "Ljava/lang/Integer;"),
    ("kotlin/Long", "J", "Ljava/lang/Long;"),
    ("kotlin/Float", "F", "Ljava/lang/Float;"),
    ("kotlin/Double", "D", "Ljava/lang/Double;"),
];

/// The classes that `class_name` maps.
const MAPPED: [(&str, &str); 17] = [
    ("kotlin/Any", "java/lang/Object"),
    ("kotlin/String", "java/lang/String"),
    ("kotlin/CharSequence", "java/lang/CharSequence"),
    ("kotlin/Throwable", "java/lang/Throwable"),
    ("kotlin/Number", "java/lang/Number"),
    ("kotlin/Comparable", "java/lang/Comparable"),
    ("kotlin/Enum", "java/lang/Enum"),
    ("kotlin/Annotation", "java/lang/annotation/Annotation"),
    ("kotlin/collections/Iterable", "java/lang/Iterable"),
    ("kotlin/collections/Collection", "java/util/Collection"),
    ("kotlin/collections/MutableCollection", "java/util/Collection"),
    ("kotlin/collections/List", "java/util/List"),
    ("kotlin/collections/MutableList", "java/util/List"),
    ("kotlin/collections/Set", "java/util/Set"),
    ("kotlin/collections/MutableSet", "java/util/Set"),
    ("kotlin/collections/Map", "java/util/Map"),
    ("kotlin/collections/MutableMap", "java/util/Map"),
];

pub fn of_constructor(constructor: &Constructor, names: &Names<'_>) -> Option<String> {
    Some(format!("({})V", parameters(&constructor.parameters, names)?))
}

pub fn of_function(function: &Function, names: &Names<'_>) -> Option<String> {
    let suspends = function.flags & SUSPENDS != 0;
    let needed = |ty: &Option<Type>, position| printed(ty.as_ref()?, position, names);
    let receiver = if function.has_receiver { needed(&function.receiver, Position::Parameter)? } else { String::new() };
    let parameters = parameters(&function.parameters, names)?;
    if planted(Mistake::SuspendNeedsReturn) && suspends {
        needed(&function.returned, Position::Return)?;
    }
    let (continuation, returned) = if suspends {
        ("Lkotlin/coroutines/Continuation;", "Ljava/lang/Object;".to_string())
    } else {
        ("", needed(&function.returned, Position::Return)?)
    };
    Some(format!("({receiver}{parameters}{continuation}){returned}"))
}

fn parameters(parameters: &[Parameter], names: &Names<'_>) -> Option<String> {
    let left_out = |parameter: &&Parameter| parameter.name.is_none() && planted(Mistake::NamelessNoPart);
    let part = |parameter: &Parameter| printed(parameter.ty.as_ref()?, Position::Parameter, names);
    parameters.iter().filter(|parameter| !left_out(parameter)).map(part).collect()
}

fn printed(ty: &Type, position: Position, names: &Names<'_>) -> Option<String> {
    let name = names.qualified(ty.name?)?.replace('.', "/");
    if let Some((_, letter, boxed)) = PRIMITIVES.iter().find(|(primitive, ..)| *primitive == name) {
        let is_boxed = ty.nullable || position == Position::Element;
        return Some(if is_boxed { boxed } else { letter }.to_string());
    }
    if name == "kotlin/Unit" && position == Position::Return && !(planted(Mistake::UnitNullable) && ty.nullable) {
        return Some("V".to_string());
    }
    let array = |(primitive, letter, boxed): &(&str, &'static str, &'static str)| {
        let element = if planted(Mistake::BoxedArrays) { boxed } else { letter };
        (name.strip_suffix("Array") == Some(*primitive)).then(|| format!("[{element}"))
    };
    if let Some(text) = PRIMITIVES.iter().find_map(array) {
        return Some(text);
    }
    match name.as_str() {
        "kotlin/Nothing" => None,
        "kotlin/Array" => {
            if planted(Mistake::ArrayFirstField) && ty.first_dropped {
                return None;
            }
            let same = planted(Mistake::UnitElement) && position == Position::Return;
            let inner = if same { Position::Return } else { Position::Element };
            let over = |argument: &&Type| planted(Mistake::StarPassedOver) && argument.projection == Projection::Star;
            let element = ty.arguments.iter().find(|argument| !over(argument))?;
            printed(element, inner, names).map(|element| format!("[{element}"))
        }
        _ => {
            let mapped = MAPPED.iter().find(|(kotlin, _)| *kotlin == name);
            Some(format!("L{};", mapped.map_or(name.as_str(), |(_, java)| java)))
        }
    }
}
