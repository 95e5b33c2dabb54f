//! The panel of a variable: its type and bits, and the accesses of a write and a read, in order.

use desfanuk::{Direction, Kind, Piece, Variable, VariablePart};

use crate::bits::{bits, KEY};
use crate::cells::registers_of;
use crate::html::{counted, escaped, name_of, value, Source, PARTS};
use crate::work::{all_shown, former, Desk, Ending, Made, Work};

pub fn panels(source: &Source) -> String {
    let variables = source.description.each_variable();
    variables.map(|variable| panel(source, variable)).collect()
}

fn panel<'d>(source: &Source<'d>, variable: Variable<'d>) -> String {
    let name = name_of(variable);
    let work = match variable.part(Direction::Write) {
        Some(_) => written(source, variable),
        None => read_only(source, variable),
    };
    format!(
        "<article class=\"variable t{}\" id=\"v-{name}\" data-v=\"{name}\">\n<h3>{name}</h3>\n\
         <p class=\"type\">{}</p>\n{}{}{}{work}{KEY}{}</article>\n",
        source.tint(variable),
        type_of(variable),
        source.note(&name, "note"),
        tags(variable),
        lists(source, variable),
        story_link(variable, &name)
    )
}

/// The type as a description writes it, and its values.
fn type_of(variable: Variable<'_>) -> String {
    let (width, range) = (variable.width(), variable.range());
    let kind = match variable.kind() {
        Kind::Int => format!("int({width})"),
        Kind::SignedInt => format!("signed int({width})"),
        Kind::Bool => "bool".to_string(),
    };
    let [least, greatest] = [range.start(), range.end()].map(|end| value(*end));
    format!("<code>{kind}</code> {least} to {greatest}")
}

fn tags(variable: Variable<'_>) -> String {
    let mut tags = Vec::new();
    let [read, write] = PARTS.map(|part| variable.part(part));
    match (&read, &write) {
        (Some(_), None) => tags.push("read only"),
        (None, Some(_)) => tags.push("write only"),
        _ => (),
    }
    if variable.is_volatile() {
        tags.push("volatile: the board may change it");
    }
    let is_trigger = |part: Option<VariablePart>| part.is_some_and(|p| p.is_trigger);
    match (is_trigger(read), is_trigger(write)) {
        (true, true) => tags.push("trigger: each access acts"),
        (true, false) => tags.push("trigger: each read acts"),
        (false, true) => tags.push("trigger: each write acts"),
        (false, false) => (),
    }
    let tags: String = tags.iter().map(|tag| format!("<li>{tag}</li>")).collect();
    format!("<ul class=\"tags\">{tags}</ul>\n")
}

/// The bit list of each part, once where they are alike.
fn lists<'d>(source: &Source<'d>, variable: Variable<'d>) -> String {
    let list = |part: Direction| {
        let part = variable.part(part)?;
        let pieces: Vec<String> = part.pieces.iter().map(|p| piece(source, p)).collect();
        Some(pieces.join(" # "))
    };
    match (list(Direction::Read), list(Direction::Write)) {
        (Some(read), Some(write)) if read != write => format!(
            "<p class=\"list\"><code>read {read}</code><br><code>write {write}</code></p>\n"
        ),
        (read, write) => {
            let one = read.or(write).expect("a variable has a part");
            format!("<p class=\"list\"><code>{one}</code></p>\n")
        }
    }
}

fn piece(source: &Source, piece: &Piece) -> String {
    let name = source.register(piece.register);
    let width = source.description.register_width(piece.register);
    match (piece.high, piece.low) {
        (high, 0) if Some(high + 1) == width => name,
        (high, low) if high == low => format!("{name}[{high}]"),
        (high, low) => format!("{name}[{high}..{low}]"),
    }
}

/// Writes of some values, to choose from, each read back where the variable can be read.
fn written<'d>(source: &Source<'d>, variable: Variable<'d>) -> String {
    let name = name_of(variable);
    let values = all_shown(variable);
    let mut picks = String::new();
    let mut runs = String::new();
    for (index, one) in values.iter().enumerate() {
        let checked = if index == 0 { " checked" } else { "" };
        picks += &format!(
            "<input type=\"radio\" name=\"p-{name}\" id=\"p-{name}-{index}\"{checked}>\
             <label for=\"p-{name}-{index}\">{}</label>\n",
            value(*one)
        );
        runs += &format!(
            "<div class=\"run\">\n{}</div>\n",
            write_and_read(source, variable, *one)
        );
    }
    format!(
        "<div class=\"picks\" role=\"group\" aria-label=\"value to write\">\n<span>write</span>\n{picks}\
         <span>over {}</span>\n{runs}</div>\n",
        value(former(variable))
    )
}

fn write_and_read<'d>(source: &Source<'d>, variable: Variable<'d>, written: i64) -> String {
    let mut desk = Desk::in_use(source.description);
    let write = desk.write(variable, written);
    let mut told = work(source, variable, Direction::Write, &write);
    if variable.part(Direction::Read).is_some() {
        let read = desk.read(variable);
        told += &work(source, variable, Direction::Read, &read);
    }
    told
}

/// A read of what the board has at first.
fn read_only<'d>(source: &Source<'d>, variable: Variable<'d>) -> String {
    let mut desk = Desk::new(source.description);
    let read = desk.read(variable);
    format!(
        "<div class=\"run\">\n{}</div>\n",
        work(source, variable, Direction::Read, &read)
    )
}

/// The accesses of a read or write in order, and how it ended.
fn work<'d>(
    source: &Source<'d>,
    variable: Variable<'d>,
    direction: Direction,
    work: &Work,
) -> String {
    let title = match direction {
        Direction::Read => "Read",
        Direction::Write => "Write",
    };
    let accesses: String = work
        .made
        .iter()
        .map(|made| access(source, variable, made))
        .collect();
    format!(
        "<h4>{title}</h4>\n<ol class=\"accesses\">\n{accesses}</ol>\n<p class=\"ending\">{}</p>\n",
        ending(work.ending)
    )
}

fn access<'d>(source: &Source<'d>, variable: Variable<'d>, made: &Made) -> String {
    let (arrow, word) = match made.access.direction {
        Direction::Read => ("\u{2192}", "gives"),
        Direction::Write => ("\u{2190}", "takes"),
    };
    format!(
        "<li><p><code class=\"at\">{}</code> <span class=\"arrow\" role=\"img\" aria-label=\"{word}\">{arrow}</span> \
         <code class=\"number\">{}</code> <span class=\"reg\">{}</span></p>\n{}</li>\n",
        source.place_of(made.access),
        source.number(made.register, made.number),
        source.register(made.register),
        bits(source, variable, made.register, made.access.direction, made.number)
    )
}

/// How a read or write ended, in words.
fn ending(ending: Ending) -> String {
    match ending {
        Ending::Done {
            value: done,
            accesses,
        } => format!(
            "<b>done</b> <code>{}</code> in {accesses} access{}",
            value(done),
            if accesses == 1 { "" } else { "es" }
        ),
        Ending::Refused(refusal) => format!(
            "<b>refused {}</b> {}",
            refusal.number(),
            escaped(refusal.words())
        ),
    }
}

fn story_link(variable: Variable<'_>, name: &str) -> String {
    let registers = registers_of(variable, Direction::Write);
    match registers.len() {
        0 | 1 => String::new(),
        count => format!(
            "<p class=\"more\"><a href=\"#s-{name}\">Written in {}: step by step</a></p>\n",
            counted(count, "register")
        ),
    }
}
