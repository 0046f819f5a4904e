//! The part of schemars that the six Rust files name. It is compiled and never called.

pub use derives::JsonSchema;

pub trait JsonSchema {
    fn schema_name() -> String;
    fn json_schema(generator: &mut gen::SchemaGenerator) -> schema::Schema;
}

pub mod gen {
    pub struct SchemaGenerator;
}

pub mod schema {
    pub enum InstanceType {
        String,
    }

    #[derive(Default)]
    pub struct SchemaObject {
        pub instance_type: Option<InstanceType>,
        pub format: Option<String>,
    }

    pub struct Schema(pub SchemaObject);

    impl From<SchemaObject> for Schema {
        fn from(object: SchemaObject) -> Self {
            Schema(object)
        }
    }
}
