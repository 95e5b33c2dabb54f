//! The map: each register as a row of cells, read and written.

use desfanuk::{Direction, RegisterPart, Variable};

use crate::cells::{cells, registers_of, runs, Cell, Run};
use crate::html::{breaking, name_of, Source, PARTS};

pub fn map(source: &Source) -> String {
    let registers = 0..source.description.registers();
    registers.map(|register| card(source, register)).collect()
}

fn card(source: &Source, register: usize) -> String {
    let name = source.register(register);
    let width = source
        .description
        .register_width(register)
        .expect("a register");
    format!(
        "<section class=\"register w{width}\" id=\"r-{name}\">\n<div class=\"who\">\n<h3>{name}</h3>\n{}{}</div>\n\
         <div class=\"bits\">\n{}{}</div>\n</section>\n",
        places(source, register),
        source.note(&name, "note"),
        numbers(width),
        strips(source, register)
    )
}

/// Where a register lies, how wide it is, and what is special about it.
fn places(source: &Source, register: usize) -> String {
    let description = source.description;
    let [read, write] = PARTS.map(|part| description.register_part(register, part));
    let at = |part: RegisterPart| source.place(part.parameter, part.offset);
    let (place, tag) = match (read.map(at), write.map(at)) {
        (Some(read), Some(write)) if read == write => (read, None),
        (Some(read), Some(write)) => (format!("read {read}<br>write {write}"), None),
        (Some(read), None) => (read, Some("read only")),
        (None, Some(write)) => (write, Some("write only")),
        (None, None) => unreachable!("a register has a part"),
    };
    let mut tags: Vec<String> = tag.map(|tag| tag.to_string()).into_iter().collect();
    let width = description.register_width(register).expect("a register");
    if width > 8 {
        tags.push(format!("{width} bits"));
    }
    for other in sharing(source, register) {
        tags.push(format!(
            "shares its place with <a href=\"#r-{other}\">{other}</a>"
        ));
    }
    let tags: String = tags.iter().map(|tag| format!("<li>{tag}</li>")).collect();
    format!("<p class=\"place\">{place}</p>\n<ul class=\"tags\">{tags}</ul>\n")
}

/// The other registers that are written where this one is.
fn sharing(source: &Source, register: usize) -> Vec<String> {
    let place = |register: usize| {
        let part = source.description.register_part(register, Direction::Write);
        part.map(|part| (part.parameter, part.offset))
    };
    let others = (0..source.description.registers())
        .filter(|other| *other != register && place(*other) == place(register));
    match place(register) {
        Some(_) => others.map(|other| source.register(other)).collect(),
        None => Vec::new(),
    }
}

fn numbers(width: usize) -> String {
    let numbers: String = (0..width)
        .rev()
        .map(|bit| format!("<i>{bit}</i>"))
        .collect();
    format!("<div class=\"strip numbers\" style=\"--bits:{width}\" aria-hidden=\"true\">{numbers}</div>\n")
}

/// One strip where both parts are alike, or one for each part.
fn strips(source: &Source, register: usize) -> String {
    let [read, write] = PARTS.map(|part| {
        let cells = cells(source.description, register, part)?;
        let triggers: Vec<bool> = runs(&cells)
            .iter()
            .map(|run| is_trigger(run, &[part]))
            .collect();
        Some((cells, triggers))
    });
    if read.is_some() && read == write {
        return Strip::new(source, register, &PARTS).drawn();
    }
    [(Direction::Read, read), (Direction::Write, write)]
        .iter()
        .filter(|(_, cells)| cells.is_some())
        .map(|(part, _)| Strip::new(source, register, &[*part]).drawn())
        .collect()
}

/// Whether each access of these parts of a run's variable acts on the board.
fn is_trigger(run: &Run, parts: &[Direction]) -> bool {
    let Cell::Held { variable, .. } = run.cell else {
        return false;
    };
    parts.iter().any(|part| {
        let part = variable.part(*part);
        part.is_some_and(|part| part.is_trigger)
    })
}

/// The cells of a register that these parts have in common.
struct Strip<'s, 'd> {
    source: &'s Source<'d>,
    register: usize,
    parts: &'s [Direction],
    cells: Vec<Cell<'d>>,
}

impl<'s, 'd> Strip<'s, 'd> {
    fn new(source: &'s Source<'d>, register: usize, parts: &'s [Direction]) -> Strip<'s, 'd> {
        Strip {
            source,
            register,
            parts,
            cells: cells(source.description, register, parts[0]).expect("the part is there"),
        }
    }

    fn drawn(&self) -> String {
        let (class, letters, words) = match self.parts {
            [Direction::Read] => ("r", "R", "read"),
            [Direction::Write] => ("w", "W", "write"),
            _ => ("rw", "R W", "read and write"),
        };
        let runs: String = runs(&self.cells).iter().map(|run| self.run(run)).collect();
        format!(
            "<div class=\"part {class}\"><abbr title=\"{words}\">{letters}</abbr>\
             <div class=\"strip\" style=\"--bits:{}\">\n{runs}</div></div>\n",
            self.cells.len()
        )
    }

    fn run(&self, run: &Run<'d>) -> String {
        let (variable, top) = match run.cell {
            Cell::Fixed(one) => return format!("<span class=\"fixed\">{}</span>\n", u8::from(one)),
            Cell::Any => return "<span class=\"any\">\u{2217}</span>\n".to_string(),
            Cell::Held { variable, bit } => (variable, bit),
        };
        let name = name_of(variable);
        let bits = bits(variable, top, run.length);
        let marks = self.marks(run, variable);
        let width = self.cells.len();
        format!(
            "<a class=\"held t{}{}{}\" href=\"#v-{name}\" data-v=\"{name}\" style=\"--span:{}\" \
             title=\"{name}{bits}\"><span><b>{}</b><small>{bits}</small></span>{marks}</a>\n",
            self.source.tint(variable),
            shape(&name, run.length, width),
            below(&marks, run.length, width),
            run.length,
            breaking(&name)
        )
    }

    /// What stands in a run's corner: the order of this register among the variable's accesses, where
    /// there are several, and letters for what is special.
    fn marks(&self, run: &Run<'d>, variable: Variable<'d>) -> String {
        let mut marks = String::new();
        if let Some(order) = order(variable, self.register, self.parts[0]) {
            marks += &format!("<abbr class=\"order\" title=\"access {order}\">{order}</abbr>");
        }
        let is_read = self.parts.contains(&Direction::Read);
        if is_read && variable.is_volatile() {
            marks += "<abbr title=\"volatile: the board may change it by itself\">v</abbr>";
        }
        if is_trigger(run, self.parts) {
            marks += "<abbr title=\"trigger: each access acts on the board\">t</abbr>";
        }
        match marks.is_empty() {
            true => marks,
            false => format!("<em>{marks}</em>"),
        }
    }
}

/// Which bits of a variable a run has, unless it has them all.
fn bits(variable: Variable<'_>, top: usize, length: usize) -> String {
    let low = top + 1 - length;
    match length {
        _ if length == variable.width() => String::new(),
        1 => format!("[{top}]"),
        _ => format!("[{top}..{low}]"),
    }
}

/// How a name is set in a run of a register: smaller, or upright, where the run is narrow for it.
fn shape(name: &str, length: usize, width: usize) -> &'static str {
    let room = length * CHARACTERS / width;
    let longest = name.split_inclusive('_').map(str::len).max().unwrap_or(0);
    match width {
        8 if longest > room => " tight",
        8 if length == 1 => " narrow",
        16 | 32 if name.len() >= room => " upright",
        _ => "",
    }
}

/// How many characters of a name a strip has room for.
const CHARACTERS: usize = 80;

/// Whether a name stands below what is in the corner, since both do not fit side by side.
fn below(marks: &str, length: usize, width: usize) -> &'static str {
    match !marks.is_empty() && 8 * length <= width {
        true => " marked",
        false => "",
    }
}

/// The place of a register among the accesses of a variable's part, where there are several.
fn order(variable: Variable<'_>, register: usize, part: Direction) -> Option<usize> {
    let registers = registers_of(variable, part);
    let place = registers.iter().position(|other| *other == register)?;
    (registers.len() > 1).then_some(place + 1)
}
