//! The words that tell profiles and headers to whoever asks.
//!
//! - A profile: `ORDER MAJOR MINOR HOST PORT KEY COMPONENTS EXTRA`.
//! - A Request: `request MINOR ID RESPONSE TARGET OPERATION PRINCIPAL CONTEXTS BODY`,
//!   where RESPONSE is the boolean or the flags, TARGET `key:OCTETS`,
//!   `profile:TAG:OCTETS` or `reference:INDEX:TYPEID:PROFILES`, and PRINCIPAL `-`
//!   where the version has none.
//! - A Reply: `reply MINOR ID STATUS CONTEXTS BODY`.
//! - A component, a context or a profile of a reference: `TAG OCTETS`, the tag of
//!   a context being its id.
//!
//! Octets are upper-case digits, `-` for none, and texts are octets without their
//! zero; COMPONENTS, EXTRA, CONTEXTS and PROFILES count, and BODY is a place.

use crate::cursor::Tagged;
use crate::header::{Header, Kind, Request, Target};
use crate::hexline::encode;
use crate::profile::Profile;

/// The word that spells octets.
pub fn word_of(octets: &[u8]) -> String {
    match octets {
        [] => "-".into(),
        _ => String::from_utf8_lossy(&encode(octets)).into_owned(),
    }
}

/// The words that tell a profile.
pub fn profile_words(profile: &Profile) -> String {
    let order = if profile.little { "little" } else { "big" };
    format!(
        "{order} {} {} {} {} {} {} {}",
        profile.major,
        profile.minor,
        word_of(profile.host.octets),
        profile.port,
        word_of(profile.key.octets),
        profile.components,
        profile.extra
    )
}

/// The words that tell octets with a tag or an id.
pub fn tagged_words(tagged: &Tagged) -> String {
    format!("{} {}", tagged.tag, word_of(tagged.run.octets))
}

/// The words that tell a header.
pub fn header_words(header: &Header) -> String {
    let Header { minor, id, .. } = header;
    let (word, middle) = match &header.kind {
        Kind::Request(request) => ("request", request_words(request)),
        Kind::Reply(status) => ("reply", status.to_string()),
    };
    format!(
        "{word} {minor} {id} {middle} {} {}",
        header.contexts, header.body
    )
}

/// The words that tell what only a Request has.
fn request_words(request: &Request) -> String {
    let principal = request.principal.map_or(&[][..], |run| run.octets);
    format!(
        "{} {} {} {}",
        request.response,
        target_word(&request.target),
        word_of(request.operation.octets),
        word_of(principal)
    )
}

/// The word that tells a target.
fn target_word(target: &Target) -> String {
    match target {
        Target::Key(run) => format!("key:{}", word_of(run.octets)),
        Target::Profile(Tagged { tag, run }) => format!("profile:{tag}:{}", word_of(run.octets)),
        Target::Reference {
            index,
            type_id,
            profiles,
        } => format!("reference:{index}:{}:{profiles}", word_of(type_id.octets)),
    }
}

#[cfg(test)]
mod tests {
    use crate::inspect::answer_header_questions;

    /// What the questions are answered where those about headers are too.
    fn header_answers(questions: &str) -> String {
        let mut output = Vec::new();
        answer_header_questions(questions.as_bytes(), &mut output).expect("no failure");
        String::from_utf8(output).expect("text")
    }

    /// A 1.0 request.
    const OLD: &str = "47494F50010000000000002A000000010000000500000001\
        0AEEEEEE0000000901EEEEEE00000000000000027000EEEE000000025051";

    /// A little-endian 1.2 request for a reference with one profile.
    const REFERENCE: &str = "47494f5001020100340000000900000003eeeeee0200eeee\
        FFFFFFFF0100000000eeeeee010000002a000000010000006beeeeee\
        0100000000eeeeee00000000";

    /// A 1.2 reply.
    const REPLY: &str = "47494F5001020001000000140000000900000002000000010000000700000000";

    #[test]
    fn headers() {
        let profile = "47494F5001020000000000240000000900EEEEEE0001EEEE00000007000000016B\
            EEEEEE000000027000EEEE00000000";
        for (message, expected) in [
            (OLD, "ok request 0 9 1 key:- 70 5051 1 54"),
            (
                REFERENCE,
                "ok request 2 9 3 reference:4294967295:-:1 - - 0 64",
            ),
            (profile, "ok request 2 9 0 profile:7:6B 70 - 0 48"),
            (REPLY, "ok reply 2 9 2 1 32"),
            ("-", "no 12"),
            ("47494F500102000500000000", "no 75"),
        ] {
            assert_eq!(
                header_answers(&format!("header {message}")),
                format!("{expected}\n")
            );
        }
    }

    #[test]
    fn parts_of_headers() {
        for (question, expected) in [
            (format!("context {OLD} 0"), "ok 5 0A"),
            (format!("context {REPLY} 00"), "ok 7 -"),
            (format!("context {REPLY} 1"), "no 69"),
            (format!("target {REFERENCE} 0"), "ok 42 6B"),
            (format!("target {REFERENCE} 18446744073709551615"), "no 69"),
            (format!("target {REPLY} 0"), "no 69"),
            (format!("head {REPLY} 31"), "no 76"),
            ("context - 0".into(), "no 12"),
            ("target - 0".into(), "no 12"),
            ("head - 0".into(), "no 12"),
        ] {
            assert_eq!(header_answers(&question), format!("{expected}\n"));
        }
        let zeroed = REFERENCE.to_uppercase().replace("EE", "00");
        for room in ["64", "0065", "18446744073709551615"] {
            let whole = format!("ok 64 {zeroed}\n");
            assert_eq!(header_answers(&format!("head {REFERENCE} {room}")), whole);
        }
    }

    #[test]
    fn lines_that_are_no_question_about_headers() {
        for word in ["header", "context", "target", "head"] {
            for words in [
                "", " ", " -  ", " - -", " - -1", " - 0 0", " 0 0", " -  0", " - 0\r",
            ] {
                assert_eq!(header_answers(&format!("{word}{words}")), "?\n");
            }
        }
        for line in [
            "header - 0",
            "context -",
            "target -",
            "head -",
            "heads - 0",
            "Header -",
        ] {
            assert_eq!(header_answers(line), "?\n");
        }
    }
}
