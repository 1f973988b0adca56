//! Declarations in reading order. Names are kept as indices; whether a name is there decides what is kept.

use super::mistakes::{planted, Mistake};
use super::names::Names;
use super::types::{Type, Types};
use super::wire::{Message, Refused};

pub struct Class {
    pub kind: u8,
    pub name: Option<u32>,
    pub flags: u64,
    pub constructors: Vec<Constructor>,
    pub functions: Vec<Function>,
    pub properties: Vec<Property>,
    pub aliases: Vec<Alias>,
    pub types: u64,
}

/// A parameter: every message of its list is one, whether its name leads to a string or not.
pub struct Parameter {
    pub name: Option<u32>,
    pub default: bool,
    pub ty: Option<Type>,
    pub vararg: Option<Type>,
}

pub struct Constructor {
    pub flags: u64,
    pub signature: Option<Signature>,
    pub parameters: Vec<Parameter>,
}

pub struct Function {
    pub name: u32,
    pub flags: u64,
    pub signature: Option<Signature>,
    pub has_receiver: bool,
    pub parameters: Vec<Parameter>,
    pub receiver: Option<Type>,
    pub returned: Option<Type>,
}

pub struct Property {
    pub name: u32,
    pub flags: u64,
    pub has_receiver: bool,
    pub getter_default: bool,
    pub setter_default: bool,
    pub field: Option<Signature>,
    pub getter: Option<Signature>,
    pub setter: Option<Signature>,
    pub receiver: Option<Type>,
    pub ty: Option<Type>,
}

/// A type alias: what it was declared to be, and that with every alias in it put in full.
pub struct Alias {
    pub name: u32,
    pub flags: u64,
    pub underlying: Option<Type>,
    pub expanded: Option<Type>,
}

/// A signature whose name and descriptor are both usable.
#[derive(Clone, Copy)]
pub struct Signature {
    pub name: SignatureName,
    pub descriptor: u32,
}

#[derive(Clone, Copy)]
pub enum SignatureName {
    Index(u32),
    Init,
}

const OMITTED: u64 = 6;
const DEFAULT_VALUE: u64 = 2;
const NOT_DEFAULT: u64 = 64;

/// The body's declarations; `types` counts what is entered, also where the payload is refused later. `nameless` is set where a parameter without a name is met.
pub fn class<'a>(body: &Message<'a>, kind: u8, names: &Names<'_>, types: &mut Types<'a>, nameless: &mut bool) -> Result<Class, Refused> {
    let is_class = kind == 1;
    let name = body.index(3).filter(|_| is_class);
    name.map(|index| names.look_up(index));
    let (function_field, property_field) = if is_class { (9, 10) } else { (3, 4) };
    let constructors = if is_class || planted(Mistake::PackageConstructors) { body.messages(8)? } else { Vec::new() };
    let constructors =
        constructors.iter().map(|message| constructor(message, names, types, nameless)).collect::<Result<_, _>>()?;
    let functions = body
        .messages(function_field)?
        .iter()
        .filter_map(|message| function(message, names, types, nameless).transpose())
        .collect::<Result<_, _>>()?;
    let properties = body
        .messages(property_field)?
        .iter()
        .filter_map(|message| property(message, names, types).transpose())
        .collect::<Result<_, _>>()?;
    let aliases = body
        .messages(alias_field(kind))?
        .iter()
        .filter_map(|message| alias(message, names, types).transpose())
        .collect::<Result<_, _>>()?;
    Ok(Class {
        kind,
        name,
        flags: if is_class { body.number(1).unwrap_or(OMITTED) } else { OMITTED },
        constructors,
        functions,
        properties,
        aliases,
        types: types.entered,
    })
}

/// The body's field for type aliases; field 5 of a class is something else.
fn alias_field(kind: u8) -> u32 {
    match kind {
        1 if planted(Mistake::ClassAliasField) => 5,
        1 => 11,
        _ => 5,
    }
}

/// Whether the body holds a type alias, with or without a name. Another wire type makes none.
pub fn has_aliases(body: &Message<'_>, kind: u8) -> bool {
    body.has_message(if kind == 1 { 11 } else { 5 })
}

/// An index that leads to a string.
fn usable(message: &Message<'_>, field: u32, names: &Names<'_>) -> Option<u32> {
    message.index(field).filter(|index| names.look_up(*index))
}

fn signature(message: &Message<'_>, names: &Names<'_>, instead: Option<SignatureName>) -> Option<Signature> {
    if planted(Mistake::UsedUndescribed) && message.index(2).is_none() {
        return None;
    }
    if planted(Mistake::UsedAccessor) {
        usable(message, 2, names);
    }
    let own = usable(message, 1, names).map(SignatureName::Index);
    Some(Signature { name: own.or(instead)?, descriptor: usable(message, 2, names)? })
}

/// A backing field's name and descriptor; both are looked up.
fn backing_field(message: &Message<'_>, names: &Names<'_>) -> Option<Signature> {
    let name = usable(message, 1, names);
    if name.is_none() && planted(Mistake::UsedNoField) {
        return None;
    }
    let descriptor = usable(message, 2, names);
    Some(Signature { name: SignatureName::Index(name?), descriptor: descriptor? })
}

fn parameters<'a>(
    owner: &Message<'a>,
    field: u32,
    names: &Names<'_>,
    types: &mut Types<'a>,
    nameless: &mut bool,
) -> Result<Vec<Parameter>, Refused> {
    let mut parameters = Vec::new();
    for message in &owner.messages(field)? {
        let name = usable(message, 2, names);
        *nameless |= name.is_none();
        if name.is_none() && planted(Mistake::NamelessSkipped) {
            continue;
        }
        if name.is_none() && planted(Mistake::NamelessUnread) {
            parameters.push(Parameter { name, default: false, ty: None, vararg: None });
            continue;
        }
        parameters.push(Parameter {
            name,
            default: message.number(1).unwrap_or(0) & DEFAULT_VALUE != 0,
            ty: types.declared(message, 3, 5)?,
            vararg: types.declared(message, 4, 6)?,
        });
    }
    Ok(parameters)
}

fn constructor<'a>(
    message: &Message<'a>,
    names: &Names<'_>,
    types: &mut Types<'a>,
    nameless: &mut bool,
) -> Result<Constructor, Refused> {
    let parameters = parameters(message, 2, names, types, nameless)?;
    let recorded = message.message(100)?;
    Ok(Constructor {
        flags: message.number(1).unwrap_or(OMITTED),
        signature: recorded.and_then(|recorded| signature(&recorded, names, Some(SignatureName::Init))),
        parameters,
    })
}

fn has_receiver(message: &Message<'_>, receiver: &Option<Type>, index: u32) -> bool {
    if planted(Mistake::ReceiverByVarint) {
        return receiver.is_some() || message.index(index).is_some();
    }
    receiver.is_some() || message.first(index).is_some()
}

fn function<'a>(
    message: &Message<'a>,
    names: &Names<'_>,
    types: &mut Types<'a>,
    nameless: &mut bool,
) -> Result<Option<Function>, Refused> {
    let Some(name) = usable(message, 2, names) else {
        if planted(Mistake::SkippedRead) {
            message.messages(6)?;
        }
        return Ok(None);
    };
    let parameters = parameters(message, 6, names, types, nameless)?;
    let receiver = types.declared(message, 5, 8)?;
    let recorded = message.message(100)?;
    let signature = recorded.and_then(|recorded| signature(&recorded, names, Some(SignatureName::Index(name))));
    let returned = types.declared(message, 3, 7)?;
    Ok(Some(Function {
        name,
        flags: message.number(9).unwrap_or(OMITTED),
        signature,
        has_receiver: has_receiver(message, &receiver, 8),
        parameters,
        receiver,
        returned,
    }))
}

fn property<'a>(message: &Message<'a>, names: &Names<'_>, types: &mut Types<'a>) -> Result<Option<Property>, Refused> {
    let Some(name) = usable(message, 2, names) else {
        return Ok(None);
    };
    let recorded = message.message(100)?;
    let part = |field| recorded.as_ref().map_or(Ok(None), |recorded| recorded.message(field));
    let field = match part(1) {
        Err(refused) if planted(Mistake::FieldRefuses) => return Err(refused),
        Err(refused @ Refused::ForbiddenField(_)) if planted(Mistake::ForbiddenRefuses) => return Err(refused),
        field => field.ok().flatten(),
    };
    let field = field.and_then(|field| backing_field(&field, names));
    let receiver = types.declared(message, 5, 10)?;
    let instead = planted(Mistake::AccessorFallsBack).then_some(SignatureName::Index(name));
    let accessor = |part: Option<Message<'_>>| part.and_then(|part| signature(&part, names, instead));
    let getter = accessor(part(3)?);
    let setter = accessor(part(4)?);
    let ty = types.declared(message, 3, 9)?;
    let omitted = if planted(Mistake::AccessorFlagsSix) { 70 } else { 0 };
    let is_default = |field| message.number(field).unwrap_or(omitted) & NOT_DEFAULT == 0;
    Ok(Some(Property {
        name,
        flags: message.number(11).unwrap_or(OMITTED),
        has_receiver: has_receiver(message, &receiver, 10),
        getter_default: is_default(7),
        setter_default: is_default(8),
        field,
        getter,
        setter,
        receiver,
        ty,
    }))
}

fn alias<'a>(message: &Message<'a>, names: &Names<'_>, types: &mut Types<'a>) -> Result<Option<Alias>, Refused> {
    let Some(name) = usable(message, 2, names) else {
        if planted(Mistake::SkippedAliasRead) {
            types.declared(message, 4, 5)?;
        }
        return Ok(None);
    };
    let (underlying, expanded) = if planted(Mistake::ExpandedFirst) {
        let expanded = types.declared(message, 6, 7)?;
        (types.declared(message, 4, 5)?, expanded)
    } else {
        let underlying = types.declared(message, 4, 5)?;
        (underlying, types.declared(message, 6, 7)?)
    };
    Ok(Some(Alias { name, flags: message.number(1).unwrap_or(OMITTED), underlying, expanded }))
}
