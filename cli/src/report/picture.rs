//! Live files and bytes over the versions, as one picture in SVG: a column for each version of the log, in order; a version that cannot be read is a
//! hatched column, a gap a dashed line, a checkpoint a triangle below the line.

use std::fmt::Write;

use crate::log::{Survey, VersionSeen};
use crate::text::{grouped, short};

const WIDTH: f64 = 760.0;
const LEFT: f64 = 92.0;
const RIGHT: f64 = 22.0;
const HEIGHT: f64 = 130.0;
const TOP: f64 = 26.0;
const BETWEEN: f64 = 34.0;
const BELOW: f64 = 40.0;

/// The most version numbers that are written below the line.
const LABELS: usize = 10;

pub fn picture(survey: &Survey) -> String {
    let step = (WIDTH - LEFT - RIGHT) / survey.versions.len().max(1) as f64;
    let whole = TOP + 2.0 * HEIGHT + BETWEEN + BELOW;
    let mut svg = format!(
        "<svg viewBox=\"0 0 {WIDTH} {whole}\" role=\"img\" aria-labelledby=\"picture-title picture-words\">\n\
         <title id=\"picture-title\">Live files and bytes over the versions</title>\n<desc id=\"picture-words\">{}</desc>\n\
         <defs>{}{}</defs>\n",
        words(survey),
        hatch("hatch"),
        hatch("soft")
    );
    let files = |seen: &VersionSeen| seen.answer.as_ref().ok().map(|summary| summary.files as f64);
    let bytes = |seen: &VersionSeen| seen.answer.as_ref().ok().map(|summary| summary.bytes as f64);
    chart(&mut svg, survey, step, TOP, ("files", "live files", grouped), files);
    chart(&mut svg, survey, step, TOP + HEIGHT + BETWEEN, ("bytes", "bytes", short), bytes);
    below(&mut svg, survey, step, TOP + 2.0 * HEIGHT + BETWEEN);
    svg + "</svg>\n"
}

fn hatch(id: &str) -> String {
    format!(
        "<pattern id=\"{id}\" width=\"6\" height=\"6\" patternUnits=\"userSpaceOnUse\" patternTransform=\"rotate(45)\">\
         <rect class=\"{id}-ground\" width=\"6\" height=\"6\"/><line class=\"{id}-line\" y2=\"6\"/></pattern>"
    )
}

/// What the picture shows, for those who do not see it.
fn words(survey: &Survey) -> String {
    let read: Vec<_> = survey.versions.iter().filter_map(|seen| seen.answer.as_ref().ok()).collect();
    match (read.first(), read.last()) {
        (Some(first), Some(last)) => format!(
            "{} of {} versions can be read. Version {} has {} files and {} bytes, version {} has {} files and {} bytes. \
             The table of versions below has all numbers.",
            read.len(),
            survey.versions.len(),
            first.version,
            first.files,
            first.bytes,
            last.version,
            last.files,
            last.bytes
        ),
        _ => "No version can be read.".to_string(),
    }
}

/// One chart: columns from its floor, as high as the value; what cannot be read is hatched over the whole height.
fn chart(
    svg: &mut String,
    survey: &Survey,
    step: f64,
    top: f64,
    named: (&str, &str, fn(u128) -> String),
    value: impl Fn(&VersionSeen) -> Option<f64>,
) {
    let (class, name, scale) = named;
    let versions = &survey.versions;
    let floor = top + HEIGHT;
    let most = versions.iter().filter_map(&value).fold(0.0, f64::max);
    put(svg, format_args!("<text class=\"name\" x=\"{LEFT}\" y=\"{:.1}\">{name}</text>", top - 9.0));
    for (height, shown) in [(0.0, 0.0), (0.5, most / 2.0), (1.0, most)] {
        let y = floor - height * HEIGHT;
        put(
            svg,
            format_args!(
                "<line class=\"grid\" x1=\"{LEFT}\" x2=\"{:.1}\" y1=\"{y:.1}\" y2=\"{y:.1}\"/>",
                WIDTH - RIGHT
            ),
        );
        if height != 0.5 && (height == 0.0 || most > 0.0) {
            let y = y + 4.0;
            put(
                svg,
                format_args!(
                    "<text class=\"scale\" x=\"{:.1}\" y=\"{y:.1}\">{}</text>",
                    LEFT - 8.0,
                    scale(shown as u128)
                ),
            );
        }
    }
    let gap = if step > 6.0 { 1.5 } else { 0.0 };
    for (place, seen) in versions.iter().enumerate() {
        let (x, width) = (LEFT + place as f64 * step + gap / 2.0, step - gap);
        match value(seen) {
            Some(value) => {
                let height =
                    if most > 0.0 { (value / most * HEIGHT).max(if value > 0.0 { 1.0 } else { 0.0 }) } else { 0.0 };
                let label = format!("version {}: {} {name}", seen.version, grouped(value as u128));
                put(
                    svg,
                    format_args!(
                        "<rect class=\"{class}\" x=\"{x:.2}\" y=\"{:.2}\" width=\"{width:.2}\" height=\"{height:.2}\"><title>{label}</title></rect>",
                        floor - height
                    ),
                );
            }
            None => {
                let (class, why) = if survey.is_not_kept(seen) {
                    ("not-kept", "is not kept any more")
                } else {
                    ("unread", "cannot be read")
                };
                let label = format!("version {} {why}", seen.version);
                put(
                    svg,
                    format_args!("<rect class=\"{class}\" x=\"{x:.2}\" y=\"{top}\" width=\"{width:.2}\" height=\"{HEIGHT}\"><title>{label}</title></rect>"),
                );
            }
        }
    }
}

/// Versions, checkpoints and gaps below the two charts.
fn below(svg: &mut String, survey: &Survey, step: f64, floor: f64) {
    let count = survey.versions.len();
    let every = ((count + LABELS - 1) / LABELS).max(1);
    let mut before: Option<u64> = None;
    for (place, seen) in survey.versions.iter().enumerate() {
        let left = LEFT + place as f64 * step;
        let middle = left + step / 2.0;
        if before.map_or(seen.version > 0, |before| before + 1 < seen.version) {
            put(
                svg,
                format_args!(
                    "<line class=\"gap\" x1=\"{left:.1}\" x2=\"{left:.1}\" y1=\"{TOP}\" y2=\"{:.1}\"><title>gap before version {}</title></line>",
                    floor + 6.0,
                    seen.version
                ),
            );
        }
        before = Some(seen.version);
        if let Some(checkpoint) = seen.checkpoint {
            let marked = survey
                .checkpoints
                .iter()
                .any(|other| other.entry == checkpoint && other.marked && other.fault.is_none());
            let (class, name) = if marked {
                ("checkpoint marked", "checkpoint, named by the marker")
            } else {
                ("checkpoint", "checkpoint")
            };
            put(
                svg,
                format_args!(
                    "<path class=\"{class}\" d=\"M{middle:.1} {:.1}l-5 8h10z\"><title>{name} {}</title></path>",
                    floor + 3.0,
                    seen.version
                ),
            );
        }
        if place % every == 0 || place + 1 == count && place % every > every / 2 {
            put(
                svg,
                format_args!(
                    "<text class=\"version\" x=\"{middle:.1}\" y=\"{:.1}\">{}</text>",
                    floor + 27.0,
                    seen.version
                ),
            );
        }
    }
}

fn put(svg: &mut String, what: std::fmt::Arguments) {
    writeln!(svg, "{what}").expect("a string takes everything");
}
