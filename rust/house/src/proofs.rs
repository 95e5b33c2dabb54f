//! What the proofs argue: the laws of a file, and the clauses of a function's proof.

use crate::documents::{imports, is_own_spec};
use crate::shape::shape;
use std::collections::HashSet;

/// A law, or what a function's proof argues.
pub struct Argument {
    pub name: String,
    pub lines: usize,
    pub shape: String,
}

/// The laws of a file: what stands between blank lines, comments left out. Definitions and the heads of modules are
/// none. A line that only says what to unfold is not counted.
pub fn laws(text: &str) -> Vec<Argument> {
    let plain =
        |l: &&str| !l.trim_start().starts_with("--") && !l.trim_start().starts_with("module ");
    let lines: Vec<&str> = text.lines().filter(plain).collect();
    lines
        .split(|l| l.trim().is_empty())
        .filter(|block| is_law(block))
        .map(|block| Argument {
            name: block[0].trim().chars().take(70).collect(),
            lines: block
                .iter()
                .filter(|l| !l.trim_start().starts_with("unfolding "))
                .count(),
            shape: shape(&block.join("\n")),
        })
        .collect()
}

fn is_law(block: &[&str]) -> bool {
    let Some(head) = block.first() else {
        return false;
    };
    let other = [
        "use ",
        "pub use ",
        "abbrev ",
        "unfoldable ",
        "pub record ",
        "record ",
    ];
    let defined = other.iter().any(|s| head.trim_start().starts_with(s));
    !defined
}

/// What a function's proof argues itself, in Answers.antt: its clauses, but for those that the checker finds, that hold
/// by facts at hand, or that cite a law on such facts. What several promises ask at one place is one clause.
pub fn argued(name: &str, text: &str) -> Argument {
    let laws = cited(text);
    let mut own = clauses(text);
    own.retain(|c| argues(c, &laws));
    let places: HashSet<&str> = own.iter().map(|c| place(c)).collect();
    let shapes: Vec<String> = own.iter().map(|c| shape(c)).collect();
    Argument {
        name: name.to_string(),
        lines: places.len(),
        shape: shapes.join("\n"),
    }
}

/// The place of the code that a clause is about: `returns-then-on` of `returns-then-on-clause-stored c = ..`.
fn place(clause: &str) -> &str {
    let name = clause.split(' ').next().unwrap();
    name.split("-clause-").next().unwrap()
}

/// The laws that a function's proof may cite: what it takes from another place than the specifications of a crate here,
/// and what it states itself.
fn cited(text: &str) -> HashSet<String> {
    let taken = imports(text)
        .into_iter()
        .filter(|(from, _)| !is_own_spec(from))
        .map(|(_, name)| name);
    let stated = text.lines().filter_map(|l| l.split_once(" : "));
    let stated = stated.map(|(name, _)| name.trim_start_matches("pub ").to_string());
    taken.chain(stated).collect()
}

/// The clauses `goal facts = argument` of a function's proof, each on a line; not a last line that lists the goals, as
/// a proof that walks the code by hand has one.
fn clauses(text: &str) -> Vec<String> {
    let mut found: Vec<String> = Vec::new();
    let mut open = false;
    for line in text.lines() {
        if line.starts_with([' ', ')']) && open {
            let last = found.last_mut().unwrap();
            last.push(' ');
            last.push_str(line.trim());
        } else {
            open = is_clause(line);
            if open {
                found.push(line.to_string());
            }
        }
    }
    found
}

fn is_clause(line: &str) -> bool {
    let other = ["use ", "pub ", "abbrev ", "--"];
    let stated = line.contains(" : ") && !line.contains(" = ");
    let blank = line.trim().is_empty() || line.starts_with(' ');
    let listed = line.split(' ').next().unwrap().ends_with("-spec");
    !blank
        && !stated
        && !listed
        && line.contains(" =")
        && !other.iter().any(|s| line.starts_with(s))
}

/// A clause that argues turns, joins or takes apart what it knows.
fn argues(clause: &str, laws: &HashSet<String>) -> bool {
    let argument = clause.split_once(" =").unwrap().1.trim();
    let joins = ["∙", "λ"].iter().any(|s| argument.contains(s));
    let turns = ["rw", "simp", "sym", "ap", "ap₂", "subst", "let", "record"];
    let words = argument.split(|c: char| c.is_whitespace() || "(),".contains(c));
    let turned = words.into_iter().any(|w| turns.contains(&w));
    (joins || turned) && !holds_by_facts(argument, laws)
}

/// `rw (c.if-on.true, ← c.word.ensures)`, `rw c.in-Some.is`: the definition at what the branch and the calls tell.
fn holds_by_facts(argument: &str, laws: &HashSet<String>) -> bool {
    let Some(facts) = argument.strip_prefix("rw ") else {
        return false;
    };
    let listed = facts.strip_prefix('(').and_then(|f| f.strip_suffix(')'));
    let mut each = listed.unwrap_or(facts).split(", ");
    each.all(|it| is_fact(it, laws))
}

/// A fact that is known at a place, as `c.if-on.true`, or a definition's name.
fn is_fact(argument: &str, laws: &HashSet<String>) -> bool {
    let plain = argument.trim_start_matches("← ");
    let (first, fields) = plain.split_once('.').unwrap_or((plain, ""));
    let name = first.chars().all(|c| c.is_alphanumeric() || c == '_');
    let law = fields.is_empty() && first.contains('_') && laws.contains(first);
    name && !law && !fields.contains([' ', '(', ')'])
}

/// The groups of arguments of one shape, those of at least so many lines.
pub fn alike(arguments: &[Argument], least: usize) -> Vec<Vec<&Argument>> {
    let mut groups: Vec<Vec<&Argument>> = Vec::new();
    for argument in arguments.iter().filter(|a| a.lines >= least) {
        match groups.iter_mut().find(|g| g[0].shape == argument.shape) {
            Some(group) => group.push(argument),
            None => groups.push(vec![argument]),
        }
    }
    groups.retain(|g| g.len() > 1);
    groups
}

#[cfg(test)]
mod tests {
    use super::*;

    const TWO: &str = "-- of bits\nuse a.{b}\n\nlow : (n : ℕ) → n ≤ f 3 n\nlow zero = g\nlow (suc n) = h (low n)\n\n\
        high : (m : ℕ) → m ≤ k 7 m\nhigh zero = g\nhigh (suc m) = l (high m)\n";

    #[test]
    fn a_law_written_twice_is_found() {
        let laws = laws(TWO);
        assert_eq!(laws.len(), 2);
        assert_eq!(alike(&laws, 3).len(), 1);
        assert_eq!(alike(&laws, 4).len(), 0);
    }

    #[test]
    fn what_is_defined_is_no_law() {
        assert_eq!(laws("abbrev pub two : ℕ\ntwo = 2\n").len(), 0);
        assert_eq!(
            laws("eight : more 7 one ≡ eight\nunfolding more\neight = refl\n")[0].lines,
            2
        );
    }

    #[test]
    fn what_is_found_or_cited_is_not_argued() {
        let lines = |clause: &str| argued("f", clause).lines;
        assert_eq!(lines("pub add : goal.add\nadd c = search rules\n"), 0);
        assert_eq!(
            lines("returns c = rw (c.if-on.true, ← c.word.ensures)\n"),
            0
        );
        assert_eq!(lines("returns c = rw c.in-Some.is\n"), 0);
        assert_eq!(lines("returns c = rw c.in-Some.is c.word.ensures\n"), 1);
        assert_eq!(
            lines("again c = law _ _ c.loop-i.invariant (omega (arith, c.if-on.true))\n"),
            0
        );
        assert_eq!(lines("returns c = rw (law c.if-on.true)\n"), 1);
        assert_eq!(lines("returns c =\n    c.loop-i.invariant ∙ law _\n"), 1);
    }

    #[test]
    fn what_is_promised_at_one_place_is_one_clause() {
        let lines = |text: &str| argued("f", text).lines;
        let two = "returns-clause-is c = law c ∙ refl\nreturns-clause-was c = law c ∙ refl\n";
        assert_eq!(lines(two), 1);
        let more = "returns-then-on-clause-is c = law c ∙ refl\n";
        assert_eq!(lines(&format!("{two}{more}")), 2);
    }

    #[test]
    fn a_definition_is_told_from_a_law() {
        let lines = |from: &str| {
            let text =
                format!("use {from}.{{is_wide}}\n\nreturns c = rw (c.if-on.true, is_wide)\n");
            argued("f", &text).lines
        };
        assert_eq!(lines("Rattle.bits.specs.Widths"), 0);
        assert_eq!(lines("Rattle.bits.proofs.WidthLaws"), 1);
        assert_eq!(lines("Rattle.std.specs.Num"), 1);
        assert_eq!(lines("lib.Pow"), 1);
        let own = "is_wide : IsTrue b\nis_wide = law\n\nreturns c = rw (c.if-on.true, is_wide)\n";
        assert_eq!(argued("f", own).lines, 1);
    }
}
