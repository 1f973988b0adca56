//! Records and texts, by the specification's table.

use super::descriptors;
use super::members::{Alias, Class, Constructor, Function, Parameter, Property, Signature, SignatureName};
use super::mistakes::{planted, Mistake};
use super::names::Names;
use super::types::Type;
use crate::answer::{KINDS, LISTS};
use crate::limits::TEXT;

/// The role of an argument.
const ARGUMENT: u64 = 5;

/// Sheet and text so far. Text past the limit is counted and not kept: such a sheet is refused.
#[derive(Default)]
pub struct Writer {
    pub bytes: Vec<u8>,
    pub text: Vec<u8>,
    pub text_total: u64,
    /// Records of each kind, from kind 1 on.
    pub records: [u64; KINDS],
    /// Bytes of text of each list.
    pub texts: [u64; LISTS],
    /// The list that is written.
    list: List,
}

/// The lists in the order in which their texts are told.
#[derive(Clone, Copy, Default)]
enum List {
    Properties,
    Functions,
    Constructors,
    Aliases,
    #[default]
    Head,
}

/// A planted mistake: the lists as they stand on the sheet.
pub fn in_sheet_order(texts: [u64; LISTS]) -> [u64; LISTS] {
    [List::Head, List::Constructors, List::Functions, List::Properties, List::Aliases].map(|list| texts[list as usize])
}

impl Writer {
    pub fn head_alone(&mut self, kind: u8) {
        self.record(1);
        self.number(u64::from(kind), 1);
        self.text(None);
        self.number(6, 8);
        self.number(0, 6);
        if !planted(Mistake::HeadsWithoutAliases) {
            self.alias_count(0);
        }
    }

    pub fn class(&mut self, class: &Class, names: &Names<'_>) {
        self.record(1);
        self.number(u64::from(class.kind), 1);
        self.text(class.name.and_then(|index| names.qualified(index)));
        self.number(class.flags, 8);
        self.number(class.constructors.len() as u64, 2);
        self.number(class.functions.len() as u64, 2);
        self.number(class.properties.len() as u64, 2);
        self.list = List::Constructors;
        for constructor in &class.constructors {
            self.constructor(constructor, names);
        }
        self.list = List::Functions;
        for function in &class.functions {
            self.function(function, names);
        }
        self.list = List::Properties;
        for property in &class.properties {
            self.property(property, names);
        }
        self.list = List::Aliases;
        self.aliases(&class.aliases, names);
    }

    fn constructor(&mut self, constructor: &Constructor, names: &Names<'_>) {
        self.record(2);
        self.number(constructor.flags, 8);
        self.signature(constructor.signature, names);
        self.number(constructor.parameters.len() as u64, 2);
        self.parameters(&constructor.parameters, names);
        self.default_descriptor(descriptors::of_constructor(constructor, names));
    }

    fn function(&mut self, function: &Function, names: &Names<'_>) {
        self.record(3);
        self.text(names.string(function.name));
        self.number(function.flags, 8);
        self.signature(function.signature, names);
        self.number(u64::from(function.has_receiver), 1);
        self.number(function.parameters.len() as u64, 2);
        self.parameters(&function.parameters, names);
        if planted(Mistake::ReturnBeforeReceiver) {
            self.declared(1, &function.returned, names);
            self.declared(2, &function.receiver, names);
        } else {
            self.declared(2, &function.receiver, names);
            self.declared(1, &function.returned, names);
        }
        self.default_descriptor(descriptors::of_function(function, names));
    }

    fn default_descriptor(&mut self, text: Option<String>) {
        let list = self.list;
        if planted(Mistake::RoomDefaultsApart) {
            self.list = List::Head;
        }
        self.record(7);
        self.text(text);
        self.list = list;
    }

    fn property(&mut self, property: &Property, names: &Names<'_>) {
        self.record(4);
        self.text(names.string(property.name));
        self.number(property.flags, 8);
        for bit in [property.has_receiver, property.getter_default, property.setter_default] {
            self.number(u64::from(bit), 1);
        }
        self.signature(property.field, names);
        if planted(Mistake::PropertyReadingOrder) {
            self.swapped_accessors(property, names);
        } else {
            self.signature(property.getter, names);
            self.signature(property.setter, names);
        }
        self.declared(2, &property.receiver, names);
        self.declared(1, &property.ty, names);
    }

    /// A planted mistake: the setter's texts first.
    fn swapped_accessors(&mut self, property: &Property, names: &Names<'_>) {
        let mut later = Writer::default();
        std::mem::swap(&mut later.text, &mut self.text);
        later.text_total = self.text_total;
        later.texts = self.texts;
        later.list = self.list;
        later.signature(property.setter, names);
        let setter = std::mem::take(&mut later.bytes);
        later.signature(property.getter, names);
        self.bytes.extend(&later.bytes);
        self.bytes.extend(setter);
        self.text = later.text;
        self.text_total = later.text_total;
        self.texts = later.texts;
    }

    /// It stands also where there are no aliases.
    fn alias_count(&mut self, count: usize) {
        self.record(9);
        self.number(count as u64, 2);
    }

    fn aliases(&mut self, aliases: &[Alias], names: &Names<'_>) {
        if aliases.is_empty() && planted(Mistake::NoEmptyAliases) {
            return;
        }
        self.alias_count(aliases.len());
        for alias in aliases {
            self.record(8);
            self.text(names.string(alias.name));
            let flags = if planted(Mistake::AliasFlagsCut) { u64::from(alias.flags as u32) } else { alias.flags };
            self.number(flags, 8);
            self.declared(6, &alias.underlying, names);
            self.declared(7, &alias.expanded, names);
        }
    }

    fn parameters(&mut self, parameters: &[Parameter], names: &Names<'_>) {
        for parameter in parameters {
            self.record(5);
            self.text(parameter.name.and_then(|name| names.string(name)));
            self.number(u64::from(parameter.default), 1);
            self.declared(3, &parameter.ty, names);
            self.declared(4, &parameter.vararg, names);
        }
    }

    fn declared(&mut self, role: u64, ty: &Option<Type>, names: &Names<'_>) {
        if let Some(ty) = ty {
            self.ty(role, ty, names);
        }
    }

    fn ty(&mut self, role: u64, ty: &Type, names: &Names<'_>) {
        let list = self.list;
        if planted(Mistake::RoomTypesApart) && matches!(list, List::Functions) {
            self.list = List::Properties;
        }
        self.record(6);
        self.number(role, 1);
        self.number(u64::from(ty.nullable), 1);
        self.text(ty.name.and_then(|index| names.qualified(index)));
        let omitted = planted(Mistake::ArgumentsOnly) && role != ARGUMENT;
        let projection = if omitted { 0 } else { ty.projection as u64 };
        let mut cells = [(ty.arguments.len() as u64, 2), (projection, 1)];
        if planted(Mistake::ProjectionBeforeCount) {
            cells.reverse();
        }
        cells.into_iter().for_each(|(number, width)| self.number(number, width));
        for argument in &ty.arguments {
            self.ty(ARGUMENT, argument, names);
        }
        self.list = list;
    }

    fn signature(&mut self, signature: Option<Signature>, names: &Names<'_>) {
        self.text(signature.and_then(|signature| match signature.name {
            SignatureName::Index(index) => names.string(index),
            SignatureName::Init => Some("<init>".to_string()),
        }));
        self.text(signature.and_then(|signature| names.string(signature.descriptor)));
    }

    /// A ref, and the text behind it.
    fn text(&mut self, text: Option<String>) {
        let Some(text) = text else {
            self.number(0xffff_ffff, 4);
            return;
        };
        self.number(self.text_total, 2);
        self.number(text.len() as u64, 2);
        self.text_total += text.len() as u64;
        self.texts[self.list as usize] += text.len() as u64;
        if self.text_total <= TEXT {
            self.text.extend(text.bytes());
        }
    }

    /// Begins a record.
    fn record(&mut self, kind: u8) {
        self.bytes.push(kind);
        self.records[usize::from(kind) - 1] += 1;
    }

    fn number(&mut self, number: u64, width: usize) {
        self.bytes.extend(&number.to_le_bytes()[..width]);
    }
}
