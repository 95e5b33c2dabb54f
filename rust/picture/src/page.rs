//! The whole page.

use desfanuk::{Described, Description};

use crate::html::{breaking, counted, escaped, Source};
use crate::listing::listing;
use crate::map::map;
use crate::panel::panels;
use crate::storyboard::storyboards;
use crate::text::device_name;

/// The page fetches nothing, and a browser holds it to that.
const POLICY: &str = "<meta http-equiv=\"Content-Security-Policy\" content=\"default-src 'none'; img-src data:; \
    style-src 'unsafe-inline'; script-src 'unsafe-inline'; base-uri 'none'; form-action 'none'\">\n";

const STYLE: &str = include_str!("page.css");
const SCRIPT: &str = include_str!("page.js");

/// A page that shows a description, as HTML that refers to nothing outside it. One text has one page.
pub fn page(description: &Description) -> String {
    description.with(page_of)
}

fn page_of(description: Described<'_>) -> String {
    let source = Source::new(description);
    let device = escaped(&device_name(description.text()));
    format!(
        "<!DOCTYPE html>\n<html lang=\"en\">\n<head>\n<meta charset=\"utf-8\">\n{POLICY}\
         <meta name=\"viewport\" content=\"width=device-width, initial-scale=1\">\n\
         <meta name=\"color-scheme\" content=\"light dark\">\n<link rel=\"icon\" href=\"data:,\">\n\
         <title>{device}: register map</title>\n<style>\n{STYLE}</style>\n</head>\n<body>\n{}\
         <main>\n<section class=\"map\" aria-label=\"Registers\">\n{}</section>\n\
         <aside class=\"panel\" aria-label=\"Variable\">\n\
         <button class=\"close\" type=\"button\">close</button>\n{}</aside>\n</main>\n{}{}{}\
         <script>\n{SCRIPT}</script>\n</body>\n</html>\n",
        header(&source, &device),
        map(&source),
        panels(&source),
        stories(&source),
        text(&source),
        FOOTER
    )
}

fn header(source: &Source, device: &str) -> String {
    let description = source.description;
    format!(
        "<header>\n<div>\n<p class=\"over\">Register map</p>\n<h1>{}</h1>\n{}<p class=\"counts\">{} and {}, at {}</p>\n\
         </div>\n<div class=\"about\">\n<ul class=\"ports\">\n{}</ul>\n{}</div>\n</header>\n",
        breaking(device),
        source.note(&device_name(description.text()), "lede"),
        counted(description.registers(), "register"),
        counted(description.variables(), "variable"),
        counted(description.parameters(), "port"),
        ports(source),
        legend()
    )
}

fn ports(source: &Source) -> String {
    (0..source.description.parameters())
        .map(|parameter| {
            let offsets = source.description.offsets(parameter).expect("a parameter");
            let ranges: Vec<String> = offsets
                .iter()
                .map(|range| match (range.start(), range.end()) {
                    (low, high) if low == high => low.to_string(),
                    (low, high) => format!("{low}..{high}"),
                })
                .collect();
            let width = source
                .description
                .port_width(parameter)
                .expect("a parameter");
            format!(
                "<li><code>{}</code> <span>a port of {width} bits, @ {}</span></li>\n",
                source.parameter(parameter),
                ranges.join(", ")
            )
        })
        .collect()
}

/// What the signs of the map mean.
const LEGEND: [(&str, &str); 7] = [
    (
        "<span class=\"held t0\"><span><b>name</b></span></span>",
        "a variable\u{2019}s bits; choose it for its accesses",
    ),
    (
        "<span class=\"fixed\">0</span><span class=\"fixed\">1</span>",
        "fixed: written so, and a read that differs is refused",
    ),
    (
        "<span class=\"any\">\u{2217}</span>",
        "irrelevant: written as 0, not looked at when read",
    ),
    (
        "<span class=\"sides\">R W</span>",
        "read, written: one row where both are alike",
    ),
    (
        "<em><abbr class=\"order\">1</abbr></em>",
        "the order of accesses",
    ),
    (
        "<em><abbr>v</abbr></em>",
        "volatile: the board may change it",
    ),
    ("<em><abbr>t</abbr></em>", "trigger: each access acts"),
];

fn legend() -> String {
    let row = |(sign, words)| format!("<div><dt>{sign}</dt><dd>{words}</dd></div>\n");
    let rows: String = LEGEND.map(row).concat();
    format!("<dl class=\"legend\">\n{rows}</dl>\n")
}

fn stories(source: &Source) -> String {
    let stories = storyboards(source);
    match stories.is_empty() {
        true => String::new(),
        false => format!("<section class=\"stories\">\n{LEAD}{stories}</section>\n"),
    }
}

const LEAD: &str = "\
<h2>One value, several registers</h2>
<p class=\"lead\">A write goes register by register. A station that stops in between leaves bits of two values on the \
board, and until a write finishes no read takes them for one.</p>
";

fn text(source: &Source) -> String {
    format!(
        "<details class=\"text\">\n<summary>The description</summary>\n{}</details>\n",
        listing(source)
    )
}

const FOOTER: &str = "\
<footer>
<p>The accesses, values and refusals here are those of a station of the proved archive, at work on a simulated board \
whose registers keep what is written. A real device may answer otherwise.</p>
</footer>
";
