//! Markers that are odd in every way, within the rules or against them.

use super::dice::Dice;
use super::logs::Log;
use super::writing::quoted;

/// What a marker may hold: `@` stands for the key `version`, `#` for the version's digits.
const FORMS: &[&str] = &[
    "{@:#}",
    "{@:#}\n",
    "\r\n {@ : #} \t",
    "{@:#,\"parts\":1}",
    "{@:#,\"parts\":null}",
    "{@:#,\"p\\u0061rts\":[]}",
    "{@:#,\"format\":null}",
    "{@:#,\"format\":\"json\"}",
    "{\"format\":\"js\\u006fn\",@:#}",
    "{@:#,\"format\":\"JSON\"}",
    "{@:#,\"format\":\"avro-state\"}",
    "{@:#,\"format\":\"json-multipart\"}",
    "{@:#,\"format\":1}",
    "{@:#,\"format\":null,\"format\":\"json\"}",
    "{@:#,@:#}",
    "{@:null,@:#}",
    "{@:#,\"size\":1,\"size\":2}",
    "{@:\"#\"}",
    "{@:#.0}",
    "{@:-#}",
    "{@:0#}",
    "{@:#e0}",
    "{@:null}",
    "{}",
    "",
    "[]",
    "[{@:#}]",
    "{@:#",
    "{@:#}{@:#}",
    "{@:#},",
    "{@:#}\n{@:#}",
    "{@:9223372036854775807}",
    "{@:9223372036854775808}",
    "{@:18446744073709551616}",
    "{@:1000}",
    "{@:#,\"x\":\"\\uD800\"}",
    "{@:#,\"parts\":1,\"parts\":2}",
    "{@:#,\"stateDir\":{\"a\":[[]]}}",
    "{\"Version\":#}",
];

/// A marker that is odd in one way, over a checkpoint that is there, or is not.
pub fn odd_marker(dice: &mut Dice, log: &mut Log) {
    let version = dice.below(log.states.len()) as u64;
    if !dice.one_in(4) {
        let state = log.states[version as usize].clone();
        log.put_checkpoint(dice, version, &state);
    }
    put_odd_marker(dice, log, version);
}

/// A marker that names this version in an odd way, if at all.
pub fn put_odd_marker(dice: &mut Dice, log: &mut Log, version: u64) {
    let key = quoted(dice, "version");
    let body = match dice.below(FORMS.len() + 3) {
        form if form < FORMS.len() => FORMS[form].replace('@', &key).replace('#', &version.to_string()),
        extra => {
            let depth = 30 + (extra - FORMS.len());
            format!("{{{key}:{version},\"deep\":{}{}}}", "[".repeat(depth), "]".repeat(depth))
        }
    };
    log.put_marker_body(body.into_bytes());
}
