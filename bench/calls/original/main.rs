//! The same by the Rust crate. The implementations are by hand what its derive writes.
use schemars::_private::{insert_metadata_property_if_nonempty, insert_object_property};
use schemars::_private::{new_externally_tagged_enum_variant, new_unit_enum_variant};
use schemars::generate::SchemaSettings;
use schemars::{json_schema, schema_for, JsonSchema, Schema, SchemaGenerator};
use std::borrow::Cow;

#[path = "../types.rs"]
mod types;
use types::{Choice, Large, Small, Tree};

fn object() -> Schema {
    json_schema!({"type": "object"})
}

fn described(mut schema: Schema, text: &str) -> Schema {
    insert_metadata_property_if_nonempty(&mut schema, "description", text);
    schema
}

macro_rules! described_struct {
    ($ty:ident, $text:literal, $($name:literal: $field:ty, $is_optional:literal;)*) => {
        impl JsonSchema for $ty {
            fn schema_name() -> Cow<'static, str> {
                Cow::Borrowed(stringify!($ty))
            }

            fn schema_id() -> Cow<'static, str> {
                Cow::Borrowed(concat!(module_path!(), "::", stringify!($ty)))
            }

            fn json_schema(generator: &mut SchemaGenerator) -> Schema {
                let mut schema = object();
                $(
                    let part = generator.subschema_for::<$field>();
                    insert_object_property(&mut schema, $name, $is_optional, part);
                )*
                described(schema, $text)
            }
        }
    };
}

described_struct!(Small, "A struct of three fields.",
    "name": String, false; "count": u32, false; "done": bool, false;);
described_struct!(Large, "A struct of fifteen fields.",
    "name": String, false; "title": String, false; "text": String, false;
    "count": u32, false; "total": u64, false; "offset": i32, false;
    "rate": f64, false; "done": bool, false; "closed": bool, false;
    "words": Vec<String>, false; "numbers": Vec<u32>, false; "next": Option<u32>, true;
    "note": Option<String>, true; "pair": (u8, u8), false; "last": Vec<Option<u64>>, false;);
described_struct!(Tree, "A type in itself.", "value": u32, false; "children": Vec<Tree>, false;);

impl JsonSchema for Choice {
    fn schema_name() -> Cow<'static, str> {
        Cow::Borrowed("Choice")
    }

    fn schema_id() -> Cow<'static, str> {
        Cow::Borrowed(concat!(module_path!(), "::Choice"))
    }

    fn json_schema(generator: &mut SchemaGenerator) -> Schema {
        let mut range = object();
        insert_object_property(&mut range, "from", false, generator.subschema_for::<u32>());
        insert_object_property(&mut range, "to", false, generator.subschema_for::<u32>());
        let mut until = object();
        insert_object_property(&mut until, "last", false, generator.subschema_for::<u64>());
        let mut units = json_schema!({"type": "string"});
        units.insert("enum".into(), vec!["None", "All"].into());
        let variants: Vec<Schema> = vec![
            units,
            new_externally_tagged_enum_variant("Some", generator.subschema_for::<u32>()),
            new_externally_tagged_enum_variant("Named", generator.subschema_for::<String>()),
            new_externally_tagged_enum_variant("Listed", generator.subschema_for::<Vec<u32>>()),
            new_externally_tagged_enum_variant("Pair", generator.subschema_for::<(u8, u8)>()),
            new_externally_tagged_enum_variant("Range", range),
            new_externally_tagged_enum_variant("Until", until),
        ];
        let variants: Vec<serde_json::Value> = variants.into_iter().map(Into::into).collect();
        let mut schema = json_schema!({});
        schema.insert("oneOf".into(), variants.into());
        described(schema, "An enum of eight variants.")
    }
}

fn keywords_of(document: &Schema) -> usize {
    document.as_object().map_or(0, |keywords| keywords.len())
}

fn answer<T: JsonSchema>(way: &str, count: u32) -> String {
    let keywords: usize = match way {
        "new" => (0..count).map(|_| keywords_of(&schema_for!(T))).sum(),
        "one" => {
            let mut generator = SchemaGenerator::new(SchemaSettings::draft2020_12());
            (0..count).map(|_| keywords_of(&generator.root_schema_for::<T>())).sum()
        }
        _ => return serde_json::to_string(&schema_for!(T)).expect("a document"),
    };
    keywords.to_string()
}

fn main() {
    let words: Vec<String> = std::env::args().skip(1).collect();
    let (way, count) = (words[1].as_str(), words[2].parse().expect("a number"));
    let text = match words[0].as_str() {
        "bytes" => answer::<Vec<u8>>(way, count),
        "small" => answer::<Small>(way, count),
        "large" => answer::<Large>(way, count),
        "choice" => answer::<Choice>(way, count),
        "tree" => answer::<Tree>(way, count),
        _ => panic!("no such type"),
    };
    println!("{text}");
}
