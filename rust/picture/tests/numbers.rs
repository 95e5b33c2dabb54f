//! The numbers on the page, held against the second implementation's station and against the stored
//! life of the scoring board.

mod parts;

use std::fs;

use parts::second::Second;
use parts::{all, boards, number, one, page, panel, root, value};
use second::{Access, Answer, Part};

/// The names of a text's parameters and variables.
fn names(text: &[u8]) -> (Vec<String>, Vec<String>) {
    let description = desfanuk::Description::load(text).expect("a board");
    let parameters = (0..description.parameters()).map(|p| description.parameter_name(p));
    let called = |name: Option<&str>| name.expect("a name").to_string();
    let variables = description.with(|described| {
        let names = described.each_variable().map(|v| v.name().to_string());
        names.collect()
    });
    (parameters.map(called).collect(), variables)
}

/// Holds the accesses that the page lists to those that the station goes on to offer, and its ending to
/// the station's; each read is confirmed with the number on the page.
fn hold(second: &mut Second, parameters: &[String], begun: Answer, part: &str) {
    let mut answer = begun;
    let places = all(part, "<code class=\"at\">", "</code>");
    let numbers = all(part, "<code class=\"number\">", "</code>");
    assert!(
        !places.is_empty() && places.len() == numbers.len(),
        "{part}"
    );
    for (place, carried) in places.iter().zip(&numbers) {
        let Answer::Offer(access) = answer else {
            panic!("{answer:?}, and the page has an access at {place}");
        };
        let Access {
            direction,
            parameter,
            offset,
            number: offered,
        } = access;
        assert_eq!(*place, format!("{} @ {offset}", parameters[parameter]));
        if direction == Part::Write {
            assert_eq!(number(carried), offered, "{part}");
        }
        answer = second.confirm(number(carried));
    }
    let Answer::Done {
        value: done,
        accesses,
    } = answer
    else {
        panic!("{answer:?}: {part}");
    };
    let ending = one(part, "<p class=\"ending\">", "</p>");
    assert_eq!(value(one(ending, "<code>", "</code>")), done);
    assert!(
        ending.contains(&format!(" in {accesses} access")),
        "{ending}"
    );
}

/// A station at which every variable that can be written has the value that the page says it has.
fn in_use(text: &[u8], page: &str, variables: &[String]) -> Second {
    let mut second = Second::open(text);
    for (variable, name) in variables.iter().enumerate() {
        if second.part_is_there(variable, Part::Write) {
            let former = value(one(panel(page, name), "<span>over ", "</span>"));
            second.write(variable, former);
        }
    }
    second
}

#[test]
fn accesses_are_those_of_a_station() {
    let mut held = 0;
    for (_, text) in boards() {
        let page = page(&text);
        let (parameters, variables) = names(&text);
        for (variable, name) in variables.iter().enumerate() {
            let panel = panel(&page, name);
            let values: Vec<i64> = all(panel, "<label for=\"p-", "</label>")
                .iter()
                .map(|label| value(label.split('>').next_back().expect("a label")))
                .collect();
            for (index, run) in panel.split("<div class=\"run\">").skip(1).enumerate() {
                let mut second = in_use(&text, &page, &variables);
                for part in run.split("<h4>").skip(1) {
                    let begun = match part.starts_with("Write") {
                        true => second.begin_write(variable, values[index]),
                        false => second.begin_read(variable),
                    };
                    hold(&mut second, &parameters, begun, part);
                    held += 1;
                }
            }
        }
    }
    assert!(held > 400, "{held} reads and writes");
}

/// Each card of a story: the access, and what a read answers to a station that stops there.
fn hold_story(second: &mut Second, variable: usize, value_written: i64, cards: &[&str]) {
    let is_read = second.part_is_there(variable, Part::Read);
    let [half, whole] = match is_read {
        true => [
            "<b>refused 28</b>".to_string(),
            format!("<b>{value_written}</b>"),
        ],
        false => ["<b>half-written</b>", "<b>whole</b>"].map(String::from),
    };
    let verdict = |card: &str| one(card, "<p class=\"verdict ", "</p>").to_string();
    let mut answer = second.begin_write(variable, value_written);
    for (made, card) in cards[1..cards.len() - 1].iter().enumerate() {
        assert!(
            card.starts_with("half") && verdict(card).contains(&half),
            "{card}"
        );
        let mut stopped = second.clone();
        stopped.abandon();
        assert_eq!(stopped.marks[variable], 1);
        let number_of_refusal = if is_read { 28 } else { 26 };
        assert_eq!(
            stopped.begin_read(variable),
            Answer::Refused(number_of_refusal)
        );
        let Answer::Offer(access) = answer else {
            panic!("{answer:?}: {card}");
        };
        let deed = one(cards[made + 2], "<p class=\"deed\">write <code>", "</code>");
        assert_eq!(number(deed), access.number);
        answer = second.confirm(0);
    }
    assert!(matches!(answer, Answer::Done { .. }), "{answer:?}");
    let last = cards[cards.len() - 1];
    assert!(
        last.starts_with("whole") && verdict(last).contains(&whole),
        "{last}"
    );
}

#[test]
fn stories_are_those_of_a_station() {
    let mut told = Vec::new();
    for (_, text) in boards() {
        let page = page(&text);
        let (_, variables) = names(&text);
        for (variable, name) in variables.iter().enumerate() {
            let Some(story) = page.split(&format!("id=\"s-{name}\"")).nth(1) else {
                continue;
            };
            let story = story.split("</section>").next().expect("a story");
            let new = one(story, "</a> <span>from ", "</span>")
                .split(" to ")
                .nth(1);
            let cards: Vec<&str> = story.split("<li class=\"").skip(1).collect();
            let mut second = in_use(&text, &page, &variables);
            hold_story(&mut second, variable, value(new.expect("a value")), &cards);
            told.push(name.clone());
        }
    }
    let want = [
        "sector",
        "transmit_count",
        "remote_start",
        "remote_count",
        "score",
    ];
    assert_eq!(told, want);
}

/// The page writes the score that the stored script writes, in the same accesses.
#[test]
fn the_score_is_as_the_script_has_it() {
    let script = fs::read_to_string(root().join("boards/scoring.script")).expect("a script");
    let written = script
        .rsplit("write 0 0x5A3\n")
        .next()
        .expect("it writes a score");
    let offers: Vec<&str> = written
        .lines()
        .take_while(|line| !line.contains("done"))
        .filter_map(|line| line.strip_prefix("; -> offer write 0 "))
        .collect();
    let board = fs::read(root().join("boards/scoring.devil")).expect("a board");
    let page = page(&board);
    let run = one(panel(&page, "score"), "1443</label>", "<h4>Read");
    let run = run
        .split("<div class=\"run\">")
        .nth(1)
        .expect("the first value is shown");
    let places = all(run, "<code class=\"at\">base @ ", "</code>");
    let numbers = all(run, "<code class=\"number\">", "</code>");
    let shown: Vec<String> = places
        .iter()
        .zip(numbers)
        .map(|(p, n)| format!("{p} {n}"))
        .collect();
    assert_eq!(shown, offers);
    assert!(page.contains("The bits on the board make 1385, which nobody wrote."));
}
