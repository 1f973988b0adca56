//! The original's declarations as records and texts, by the specification's table of records.

use crate::frontend::kotlin_metadata::{
    Constructor, DeclarationFlags, Function, JvmSignature, KotlinMetadata, MetadataKind, Property, TypeReference,
    ValueParameter,
};

/// A whole sheet. Its refs mean something only where the text is at most 65,534 bytes long.
#[derive(Debug, Default, Clone, PartialEq, Eq)]
pub struct Sheet {
    pub bytes: Vec<u8>,
    pub text: Vec<u8>,
    pub types: u64,
}

const RETURN: u8 = 1;
const RECEIVER: u8 = 2;
const PARAMETER: u8 = 3;
const VARARG: u8 = 4;
const ARGUMENT: u8 = 5;

impl Sheet {
    pub fn of(metadata: &KotlinMetadata) -> Self {
        let declarations = metadata.declarations();
        let mut sheet = Self::default();
        sheet.bytes.extend([1, kind(metadata.kind())]);
        sheet.name(declarations.name.as_deref());
        sheet.flags(declarations.flags);
        sheet.count(declarations.constructors.len());
        sheet.count(declarations.functions.len());
        sheet.count(declarations.properties.len());
        for constructor in &declarations.constructors {
            sheet.constructor(constructor);
        }
        for function in &declarations.functions {
            sheet.function(function);
        }
        for property in &declarations.properties {
            sheet.property(property);
        }
        sheet
    }

    fn constructor(&mut self, constructor: &Constructor) {
        self.bytes.push(2);
        self.flags(constructor.flags);
        self.signature(&constructor.signature);
        self.count(constructor.parameters.len());
        self.parameters(&constructor.parameters);
        self.default_descriptor(constructor.default_jvm_signature());
    }

    fn function(&mut self, function: &Function) {
        self.bytes.push(3);
        self.name(Some(&function.name));
        self.flags(function.flags);
        self.signature(&function.signature);
        self.bit(function.has_receiver);
        self.count(function.parameters.len());
        self.parameters(&function.parameters);
        self.declared(RECEIVER, &function.receiver_type);
        self.declared(RETURN, &function.return_type);
        self.default_descriptor(function.default_jvm_signature());
    }

    fn property(&mut self, property: &Property) {
        self.bytes.push(4);
        self.name(Some(&property.name));
        self.flags(property.flags);
        self.bit(property.has_receiver);
        self.bit(property.getter_is_default);
        self.bit(property.setter_is_default);
        self.signature(&property.field);
        self.signature(&property.getter);
        self.signature(&property.setter);
        self.declared(RECEIVER, &property.receiver_type);
        self.declared(RETURN, &property.ty);
    }

    fn parameters(&mut self, parameters: &[ValueParameter]) {
        for parameter in parameters {
            self.bytes.push(5);
            self.name(Some(&parameter.name));
            self.bit(parameter.has_default);
            self.declared(PARAMETER, &parameter.ty);
            self.declared(VARARG, &parameter.vararg_element_type);
        }
    }

    fn declared(&mut self, role: u8, ty: &Option<TypeReference>) {
        if let Some(ty) = ty {
            self.ty(role, ty);
        }
    }

    fn ty(&mut self, role: u8, ty: &TypeReference) {
        self.types += 1;
        self.bytes.extend([6, role]);
        self.bit(ty.nullable);
        self.name(ty.name.as_deref());
        self.count(ty.arguments.len());
        for argument in &ty.arguments {
            self.ty(ARGUMENT, argument);
        }
    }

    fn default_descriptor(&mut self, signature: Option<JvmSignature>) {
        self.bytes.push(7);
        self.name(signature.as_ref().map(|signature| signature.descriptor.as_str()));
    }

    fn signature(&mut self, signature: &Option<JvmSignature>) {
        self.name(signature.as_ref().map(|signature| signature.name.as_str()));
        self.name(signature.as_ref().map(|signature| signature.descriptor.as_str()));
    }

    fn name(&mut self, name: Option<&str>) {
        let Some(name) = name else {
            self.bytes.extend([0xff; 4]);
            return;
        };
        self.count(self.text.len());
        self.count(name.len());
        self.text.extend(name.as_bytes());
    }

    fn flags(&mut self, flags: DeclarationFlags) {
        // The number itself is private to the original; `flags_read_rightly` tests this at the start of a run.
        let flags: u64 = unsafe { std::mem::transmute(flags) };
        self.bytes.extend(flags.to_le_bytes());
    }

    fn bit(&mut self, bit: bool) {
        self.bytes.push(u8::from(bit));
    }

    fn count(&mut self, count: usize) {
        self.bytes.extend((count as u16).to_le_bytes());
    }
}

fn kind(kind: MetadataKind) -> u8 {
    match kind {
        MetadataKind::Class => 1,
        MetadataKind::FileFacade => 2,
        MetadataKind::SyntheticClass => 3,
        MetadataKind::MultiFileClassFacade => 4,
        MetadataKind::MultiFileClassPart => 5,
    }
}

/// Whether flags, read as `Sheet::flags` reads them, are what they print for debugging.
pub fn flags_read_rightly() -> bool {
    let d1 = [0, 0, 0x08, 0x81, 0x82, 0x83, 0x84, 0x85, 0x86, 0x87, 0x88, 0x89, 0x01];
    let class = crate::class::Class::new(1, [1, 9, 0], &d1, std::iter::empty());
    let Ok(metadata) = class.decode() else { return false };
    let flags = metadata.declarations().flags;
    let number: u64 = unsafe { std::mem::transmute(flags) };
    number > 1 << 56 && format!("{flags:?}") == format!("DeclarationFlags({number})")
}
