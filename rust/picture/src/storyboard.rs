//! The storyboard of a write in several registers: a card for each step.

use desfanuk::{Direction, Refusal};

use crate::bits::bits;
use crate::html::{name_of, value, Source};
use crate::story::{story, Step, Story};
use crate::work::Ending;

/// The storyboards of all variables that a write takes several accesses for.
pub fn storyboards(source: &Source) -> String {
    let variables = source.description.each_variable();
    let stories = variables.filter_map(|variable| story(source.description, variable));
    stories.map(|story| storyboard(source, &story)).collect()
}

fn storyboard<'d>(source: &Source<'d>, story: &Story<'d>) -> String {
    let name = name_of(story.variable);
    let cards: String = (0..story.steps.len())
        .map(|index| card(source, story, index))
        .collect();
    format!(
        "<section class=\"story t{}\" id=\"s-{name}\" data-v=\"{name}\">\n<h3><a href=\"#v-{name}\">{name}</a> \
         <span>from {} to {}</span></h3>\n<ol class=\"steps\">\n{cards}</ol>\n{}</section>\n",
        source.tint(story.variable),
        value(story.former),
        value(story.value),
        moral(story)
    )
}

fn card<'d>(source: &Source<'d>, story: &Story<'d>, index: usize) -> String {
    let step = &story.steps[index];
    let is_half = step.offered.is_some();
    let class = if is_half { "half" } else { "whole" };
    format!(
        "<li class=\"{class}\">\n<h4>{}</h4>\n<p class=\"deed\">{}</p>\n{}{}</li>\n",
        title(step, index),
        deed(source, story, step),
        registers(source, story, index),
        verdict(story, step)
    )
}

fn title(step: &Step, index: usize) -> String {
    match (step.offered.is_some(), step.made.is_some()) {
        (false, false) => "Before".to_string(),
        (true, false) => "Begun".to_string(),
        (true, true) => format!("After access {}", index - 1),
        (false, true) => format!("After access {}: done", index - 1),
    }
}

/// What led to this step.
fn deed<'d>(source: &Source<'d>, story: &Story<'d>, step: &Step) -> String {
    let name = name_of(story.variable);
    match (step.made, step.offered) {
        (Some(made), _) => format!(
            "write <code>{}</code> at <code>{}</code>",
            source.number(made.register, made.number),
            source.place_of(made.access)
        ),
        (None, Some(_)) => format!(
            "<code>{name}</code> shall be <code>{}</code>",
            value(story.value)
        ),
        (None, None) => format!(
            "<code>{name}</code> is <code>{}</code>",
            value(story.former)
        ),
    }
}

/// What the registers hold: those that are written, and those that are still as before.
fn registers<'d>(source: &Source<'d>, story: &Story<'d>, index: usize) -> String {
    let step = &story.steps[index];
    let mut rows = String::new();
    for (order, (register, number)) in story.registers.iter().zip(&step.numbers).enumerate() {
        let class = match order + 2 {
            next if next == index => "new now",
            next if next < index => "new",
            _ => "old",
        };
        rows += &format!(
            "<div class=\"{class}\"><dt>{}</dt><dd><code>{}</code>{}</dd></div>\n",
            source.register(*register),
            source.number(*register, *number),
            bits(source, story.variable, *register, Direction::Write, *number)
        );
    }
    format!("<dl>\n{rows}</dl>\n")
}

/// What a read says to a station that stops here; where there is no reading, how the station has it.
fn verdict(story: &Story, step: &Step) -> String {
    let name = name_of(story.variable);
    let (class, verb, answer) = match step.read {
        Ending::Done { value: read, .. } => ("yes", "says", format!("<b>{}</b>", value(read))),
        Ending::Refused(Refusal::NoPart) => write_only(step),
        Ending::Refused(refusal) => ("no", "says", refused(refusal)),
    };
    let what = if verb == "says" { "a read of " } else { "" };
    let when = match step.offered {
        Some(_) => format!("Stop here, and {what}<code>{name}</code> {verb}"),
        None => format!("Now {what}<code>{name}</code> {verb}"),
    };
    format!(
        "<p class=\"verdict {class}\"><span>{when}</span> {answer}</p>\n<p class=\"alone\">{}</p>\n",
        alone(story, step)
    )
}

fn write_only(step: &Step) -> (&'static str, &'static str, String) {
    let (class, state) = match step.is_marked {
        true => ("no", "half-written"),
        false => ("yes", "whole"),
    };
    (class, "is", format!("<b>{state}</b>, and write only"))
}

fn refused(refusal: Refusal) -> String {
    let why = match refusal {
        Refusal::HalfWritten => ", half-written",
        _ => "",
    };
    format!("<b>refused {}</b>{why}", refusal.number())
}

/// What the bits on the board are worth.
fn alone(story: &Story, step: &Step) -> String {
    match (step.offered, step.made, step.unmarked) {
        (None, None, _) => "The former value, whole.".to_string(),
        (None, Some(_), _) => "The new value, whole.".to_string(),
        (Some(_), None, _) => {
            "The access on offer may have been made or not: nobody knows.".to_string()
        }
        (Some(_), Some(_), Ending::Done { value: made, .. }) if story.is_read_back => {
            let whose = match made {
                _ if made == story.former => "the former value",
                _ if made == story.value => "the new value, by chance",
                _ => "which nobody wrote",
            };
            format!("The bits on the board make {}, {whose}.", value(made))
        }
        _ => "The board has bits of two values.".to_string(),
    }
}

/// What mends a half-written variable, as the station has shown.
fn moral(story: &Story) -> String {
    let name = name_of(story.variable);
    match story.again {
        Ending::Done { value: read, .. } => format!(
            "<p class=\"moral\">Stopped after the first access and written again to its end, \
             <code>{name}</code> reads {}. Nothing less makes it readable again but a new opening.</p>\n",
            value(read)
        ),
        _ => format!(
            "<p class=\"moral\">A write that stops midway leaves <code>{name}</code> half-written until one \
             finishes.</p>\n"
        ),
    }
}
