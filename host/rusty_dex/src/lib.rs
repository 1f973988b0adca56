//! The shapes that the original's `frontend/metadata.rs` converts from. Nothing here is run.

pub mod dex {
    pub mod classes {
        #[derive(Clone, Copy)]
        pub enum AnnotationVisibility {
            Build,
            Runtime,
            System,
            Unknown(u8),
        }

        pub struct DexAnnotation {
            pub visibility: AnnotationVisibility,
            pub annotation: super::encoded_value::EncodedAnnotation,
        }
    }

    pub mod encoded_value {
        pub struct EncodedAnnotation {
            pub annotation_type: String,
            pub elements: Vec<EncodedElement>,
        }

        pub struct EncodedElement {
            pub name: String,
            pub value: EncodedValue,
        }

        pub struct DexString(pub Vec<u16>);

        impl DexString {
            pub fn utf16(&self) -> &[u16] {
                &self.0
            }
        }

        pub enum EncodedValue {
            Byte(i8),
            Short(i16),
            Char(u16),
            Int(i32),
            Long(i64),
            Float(f32),
            Double(f64),
            MethodType(String),
            MethodHandle(u32),
            String(DexString),
            Type(String),
            Field(String),
            Method(String),
            Enum(String),
            Array(Vec<EncodedValue>),
            Annotation(EncodedAnnotation),
            Null,
            Boolean(bool),
            Unsupported { value_type: u8, raw: u64 },
        }
    }
}
