// schemars, as far as id.rs must compile. No schema is ever made.
pub use derives::JsonSchema;

pub trait JsonSchema {
    fn schema_name() -> String;
    fn json_schema(generator: &mut gen::SchemaGenerator) -> schema::Schema;
}

impl JsonSchema for String {
    fn schema_name() -> String {
        String::new()
    }

    fn json_schema(_generator: &mut gen::SchemaGenerator) -> schema::Schema {
        schema::Schema
    }
}

pub mod gen {
    pub struct SchemaGenerator;
}

pub mod schema {
    pub struct Schema;
}
