//! Calls of the library.

use schemars_proved::{lint, sample, types, Dialect, Options, Refused, Verdict};

const BYTE: &[u8] = br#"{"types":[{"id":"uint8","name":"uint8","inline":true,"shape":{"int":"u8"}}],"root":0}"#;
const LIST: &[u8] = include_bytes!("../../../examples/linked-list.json");

#[test]
fn documents_are_those_of_the_program() {
    assert_eq!(
        types(BYTE, Dialect::Draft2020_12, Options::default()).as_deref(),
        Ok("{\"$schema\":\"https://json-schema.org/draft/2020-12/schema\",\"title\":\"uint8\",\"type\":\"integer\",\"format\":\"uint8\",\"maximum\":255,\"minimum\":0}\n")
    );
    let draft = types(LIST, Dialect::Draft07, Options::default()).unwrap();
    assert!(draft.starts_with("{\"$schema\":\"http://json-schema.org/draft-07/schema#\",\"title\":\"Node\""));
    let definitions = types(LIST, Dialect::OpenApi3, Options::default()).unwrap();
    assert!(definitions.starts_with("{\"Node\":{"));
    let old = types(LIST, Dialect::Draft2019_09, Options { inline: true, serialize: true }).unwrap();
    assert!(old.contains("2019-09"));
}

#[test]
fn a_buffer_that_is_too_short_is_asked_for_again() {
    let numbers: Vec<String> = (0..5000).map(|n| n.to_string()).collect();
    let text = format!("[{}]", numbers.join(","));
    assert!(sample(text.as_bytes(), Dialect::Draft2020_12).unwrap().contains(&text));
    let fields: Vec<String> = (0..400).map(|n| format!("{{\"name\":\"f{n}\",\"type\":1}}")).collect();
    let table = format!(
        "{{\"types\":[{{\"id\":\"S\",\"name\":\"S\",\"shape\":{{\"struct\":{{\"fields\":[{}]}}}}}},{{\"id\":\"i\",\"name\":\"i\",\"inline\":true,\"shape\":{{\"literal\":{{\"type\":\"integer\",\"description\":\"{}\"}}}}}}],\"root\":0}}",
        fields.join(","),
        "long ".repeat(100)
    );
    let document = types(table.as_bytes(), Dialect::Draft2020_12, Options::default()).unwrap();
    assert!(document.len() > 4 * table.len() + 4096);
}

#[test]
fn refusals_have_names() {
    let refused = |table: &[u8]| types(table, Dialect::Draft2020_12, Options::default()).unwrap_err();
    assert_eq!(refused(b""), Refused::NotJson);
    assert_eq!(refused(b"\xff"), Refused::NotJson);
    assert_eq!(refused(b"{}"), Refused::BadTable);
    assert_eq!(refused(br#"{"types":[{"id":"a","name":"a","shape":{"newtype":0}}],"root":0}"#), Refused::EmptyCycle);
    assert_eq!(refused(br#"{"types":[{"id":"a","name":"a","inline":true,"shape":{"seq":0}}],"root":0}"#), Refused::DirectCycle);
    assert_eq!(sample(b"18446744073709551616", Dialect::Draft07), Err(Refused::NotWhole));
    assert_eq!(Refused::NotJson.to_string(), "the input is not JSON");
}

#[test]
fn verdicts_are_those_of_the_linter() {
    assert_eq!(lint(BYTE), Ok((Verdict::Plain, "plain\n".to_string())));
    let (verdict, text) = lint(b"{").unwrap();
    assert_eq!(verdict, Verdict::Refused);
    assert!(text.starts_with("fault: ") && text.ends_with("refused\n"));
    let open = br#"{"types":[{"id":"L","name":"L","shape":{"literal":{"anyOf":[]}}}],"root":0}"#;
    assert_eq!(lint(open).unwrap().0, Verdict::NotPlain);
}
