//! The page itself: as stored for three boards, whole, and closed to the outside.

mod parts;

use std::collections::HashSet;
use std::fs;

use desfanuk::{Described, Description, Direction, Refusal};
use parts::{all, boards, one, page, root};

/// tests/pages/NAME.html is the page of boards/NAME.devil, which a person has looked at. A page that is
/// not as stored is written to target/pages/ of the repository, to be looked at too.
#[test]
fn three_pages_are_as_stored() {
    let folder = root().join("target/pages");
    fs::create_dir_all(&folder).expect("a folder");
    let mut others = Vec::new();
    for name in ["busmouse", "ide", "scoring"] {
        let text = fs::read(root().join(format!("boards/{name}.devil"))).expect("a board");
        let made = page(&text);
        let path = root().join(format!("rust/picture/tests/pages/{name}.html"));
        if made != fs::read_to_string(&path).unwrap_or_default() {
            fs::write(folder.join(format!("{name}.html")), made).expect("it is written");
            others.push(name);
        }
    }
    assert!(
        others.is_empty(),
        "target/pages/ has other pages of {others:?}"
    );
}

#[test]
fn one_text_has_one_page() {
    for (name, text) in boards() {
        assert_eq!(page(&text), page(&text), "{name}");
    }
}

/// Nothing is fetched: each reference is to a place of the page itself, which is there once.
#[test]
fn nothing_is_referred_to_outside() {
    for (name, text) in boards() {
        let page = page(&text);
        for outside in [
            "http:", "https:", "src=", "@import", "url(", "srcset", "<iframe", "<object", "fetch(",
        ] {
            assert!(!page.contains(outside), "{name}: {outside}");
        }
        let ids = all(&page, " id=\"", "\"");
        let there: HashSet<&str> = ids.iter().copied().collect();
        assert_eq!(ids.len(), there.len(), "{name}: an id twice");
        let references = all(&page, "href=\"", "\"");
        assert!(references.len() > 5, "{name}: {references:?}");
        for reference in references.iter().filter(|r| **r != "data:,") {
            let id = reference
                .strip_prefix('#')
                .unwrap_or_else(|| panic!("{name}: {reference}"));
            assert!(there.contains(id), "{name}: {reference}");
        }
    }
}

/// How many of a strip's bits its cells take.
fn bits(strip: &str) -> usize {
    let spans = all(strip, "--span:", "\"");
    let held: usize = spans
        .iter()
        .map(|span| span.parse::<usize>().expect("a span"))
        .sum();
    held + all(strip, "class=\"fixed\"", ">").len() + all(strip, "class=\"any\"", ">").len()
}

#[test]
fn every_register_and_variable_is_shown() {
    for (name, text) in boards() {
        let page = page(&text);
        let description = Description::load(text).expect("a board");
        for register in 0..description.registers() {
            let called = description.register_name(register).expect("a register");
            let card = one(&page, &format!("id=\"r-{called}\""), "</section>");
            let strips: Vec<&str> = card.split("<div class=\"part").skip(1).collect();
            let width = description.register_width(register).expect("a register");
            assert!(!strips.is_empty(), "{name} {called}");
            for strip in strips {
                assert_eq!(bits(strip), width, "{name} {called}");
            }
        }
        description.with(|description| {
            for called in description.each_variable().map(|v| v.name()) {
                parts::panel(&page, called);
                let map = one(&page, "<section class=\"map\"", "</main>");
                assert!(
                    map.contains(&format!("data-v=\"{called}\" style")),
                    "{name} {called}"
                );
            }
        });
    }
}

/// Holds the tags of each variable on a page.
fn hold_tags(page: &str, description: Described<'_>) {
    for variable in description.each_variable() {
        let tags = one(
            parts::panel(page, variable.name()),
            "<ul class=\"tags\">",
            "</ul>",
        );
        let [read, write] = [Direction::Read, Direction::Write].map(|part| variable.part(part));
        let is_trigger = [&read, &write].into_iter().flatten().any(|p| p.is_trigger);
        for (tag, is_so) in [
            ("read only", write.is_none()),
            ("write only", read.is_none()),
            ("volatile", variable.is_volatile()),
            ("trigger", is_trigger),
        ] {
            assert_eq!(tags.contains(tag), is_so, "{variable:?} {tag}");
        }
    }
}

/// What is special about a register or a variable is said.
#[test]
fn what_is_special_is_said() {
    for (_, text) in boards() {
        let page = page(&text);
        let description = Description::load(text).expect("a board");
        description.with(|description| hold_tags(&page, description));
    }
    let mouse = page(&fs::read(root().join("boards/busmouse.devil")).expect("a board"));
    for [one_of, other] in [["index_reg", "interruption"], ["interruption", "index_reg"]] {
        let card = one(&mouse, &format!("id=\"r-{one_of}\""), "</section>");
        let shared = format!("shares its place with <a href=\"#r-{other}\">{other}</a>");
        assert!(card.contains(&shared), "{card}");
    }
}

/// Whatever bytes a comment holds, they are text of the page and nothing else.
#[test]
fn comments_are_escaped() {
    let comment = b"<script>alert(1)</script> & \"q\" 'a' </pre> \xFF\x00\x1B[31m \r";
    let mut text = b"// ".to_vec();
    text.extend_from_slice(comment);
    text.extend_from_slice(b"\ndevice d(base:bit[8] port){\n/* ");
    text.extend_from_slice(comment);
    text.extend_from_slice(b" */register r=base:bit[8];variable v=r:int(8); // ");
    text.extend_from_slice(comment);
    text.extend_from_slice(b"\n}");
    let page = page(&text);
    let shown =
        "&lt;script&gt;alert(1)&lt;/script&gt; &amp; &quot;q&quot; &#39;a&#39; &lt;/pre&gt;";
    assert_eq!(
        page.matches(shown).count(),
        6,
        "three comments, as notes and in the listing"
    );
    assert_eq!(page.matches("<script").count(), 1);
    assert_eq!(page.matches("</pre").count(), 1);
    assert!(
        page.chars().all(|c| c == '\n' || !c.is_control()),
        "a control character"
    );
}

/// Masks that fix a bit unlike for reading and writing: what was written is read back all the same.
#[test]
fn unlike_masks_read_back() {
    let page = page(
        b"device d(b:bit[8] port){register r=b,read mask '0.......',write mask '1.......':bit[8];\
          variable v=r[6..0]:int(7);}",
    );
    let panel = parts::panel(&page, "v");
    for told in [
        "\u{2190}</span> <code class=\"number\">0xAD",
        "\u{2192}</span> <code class=\"number\">0x2D",
    ] {
        assert_eq!(panel.matches(told).count(), 1, "{told}");
    }
}

#[test]
fn a_description_without_a_variable_has_a_page() {
    let page = page(b"device d(b:bit[8] port){register r=b,mask '0*1*0*1*':bit[8];}");
    assert_eq!(
        page.matches("class=\"fixed\">").count(),
        4 + 2,
        "two are the legend's"
    );
    assert!(!page.contains("<article"));
}

#[test]
fn a_refused_text_has_no_page() {
    for (text, refusal, place) in [
        ("", Refusal::Grammar, 0),
        (
            "device d(base:bit[8] port){register r=base:bit[8];variable v=r:int(7);}",
            Refusal::Width,
            59,
        ),
        (
            "device d(base:bit[8] port){register r=base:bit[8];}",
            Refusal::Unmapped,
            36,
        ),
    ] {
        let refused = picture::of_text(text).expect_err("it is refused");
        assert_eq!((refused.refusal, refused.place), (refusal, place), "{text}");
    }
}

/// A description as large as one may be, with names as long as they may be.
#[test]
fn the_largest_description_has_a_page() {
    let mut text = "device d(b:bit[8] port@{0..255},w:bit[32] port@{0..255}){".to_string();
    for index in 0..64 {
        let port = if index % 2 == 0 { "b" } else { "w" };
        let width = if index % 2 == 0 { 8 } else { 32 };
        text += &format!("register r{index}={port}@{index}:bit[{width}];");
        text += &format!(
            "variable x{index}=r{index}[{}..1]:int({});",
            width - 1,
            width - 1
        );
        text += &format!("variable y{index}=r{index}[0]:bool;");
    }
    text += "}";
    let long = text.replace("y63", &"y".repeat(64));
    let page = page(long.as_bytes());
    assert_eq!(page.matches("<article").count(), 128);
    assert_eq!(page.matches("<section class=\"register").count(), 64);
}
