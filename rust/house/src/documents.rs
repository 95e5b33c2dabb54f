//! What a document names: files and folders of the tree, and things in them.

use crate::tree::is_kept;

/// The folders in which a path that a document names may begin.
const TOPS: [&str; 6] = ["boards/", "crates/", "docs/", "include/", "rust/", ".ci/"];

/// The paths in a text: words that begin in one of the folders. A path with a `*` or with a word in capitals, as NAME,
/// stands for many and is left out, and so is what is there only once it is built.
pub fn paths(text: &str) -> Vec<String> {
    let ends = |c: char| c.is_whitespace() || "`()[],;:\"'|<>".contains(c);
    let words = text.split(ends).map(|w| w.trim_end_matches(['.', '/']));
    let paths = words.filter(|w| TOPS.iter().any(|top| w.starts_with(top)));
    paths
        .filter(|w| !w.contains(['*', '{', '}']) && !stands_for_many(w) && !is_kept(w))
        .map(String::from)
        .collect()
}

fn stands_for_many(path: &str) -> bool {
    path.split('/').any(|part| {
        let stem = part.split('.').next().unwrap();
        let capitals = stem.chars().all(|c| c.is_ascii_uppercase() || c == '_');
        stem.len() > 1 && capitals && !part.ends_with(".md")
    })
}

/// What a name in backquotes looks like, and so what it has to be.
#[derive(Clone, Copy, Debug, PartialEq, Eq, PartialOrd, Ord)]
pub enum Looks {
    /// `demand-3`, `told_apart-bit`, `.in-width`: a definition, a law or a field.
    Definition,
    /// `GoesByPlan`: a definition, or a type of Rattle or Rust.
    Type,
    /// `written_byte`, `begin_read`: a definition, a law or a field; or a function or a constant.
    Snake,
}

/// The names in a text: what stands between two backquotes and is one word, or a word with fields as `Keeps .ended`.
/// A word is taken for a name by its hyphen, its underscore or a capital inside.
pub fn names(text: &str) -> Vec<(Looks, String)> {
    let quoted = text.split('`').skip(1).step_by(2);
    let mut found = Vec::new();
    for words in quoted.map(|q| q.split(' ').collect::<Vec<_>>()) {
        if words[1..].iter().all(|w| w.starts_with('.')) {
            let each = words.iter().map(|w| w.strip_prefix('.').unwrap_or(w));
            found.extend(each.filter_map(|w| Some((looks(w)?, w.to_string()))));
        }
    }
    found
}

fn looks(word: &str) -> Option<Looks> {
    let all = |inner: &str| {
        let plain = |c: char| c.is_ascii_alphanumeric() || inner.contains(c);
        word.chars().all(plain) && word.starts_with(|c: char| c.is_ascii_alphabetic())
    };
    let low = word.starts_with(|c: char| c.is_ascii_lowercase());
    let hump = word.chars().skip(1).any(|c| c.is_ascii_uppercase());
    let tail = word.chars().any(|c| c.is_ascii_lowercase());
    if all("_") && low && word.contains('_') {
        Some(Looks::Snake)
    } else if all("-_") && low && (word.contains('-') || hump) {
        Some(Looks::Definition)
    } else if all("") && !low && hump && tail {
        Some(Looks::Type)
    } else {
        None
    }
}

/// The names that a file of specifications or proofs defines: what stands at the front of a line before a colon, and
/// behind `record` or `data`.
pub fn defined(text: &str) -> Vec<String> {
    let mut found = Vec::new();
    for line in text.lines() {
        let mut words = line.split_whitespace().skip_while(|w| is_modifier(w));
        match (words.next(), words.next()) {
            (Some("record" | "data"), Some(name)) => found.push(name.to_string()),
            (Some(name), Some(":")) => found.push(name.to_string()),
            _ => {}
        }
    }
    found
}

/// The names that a file takes from the kit's libraries.
pub fn taken(text: &str) -> Vec<String> {
    let kits = imports(text).into_iter().filter(|(from, _)| !is_own(from));
    kits.map(|(_, name)| name).collect()
}

/// The names that a file takes from elsewhere, each with the module that it is taken from.
pub fn imports(text: &str) -> Vec<(String, String)> {
    let uses = text.lines().filter_map(|l| l.strip_prefix("use "));
    let lists = uses.filter_map(|l| {
        let (from, names) = l.split_once(".{")?;
        Some((from, names.strip_suffix('}')?))
    });
    let each = lists.flat_map(|(from, names)| names.split(", ").map(move |name| (from, name)));
    each.map(|(from, name)| (from.to_string(), name.to_string()))
        .collect()
}

/// Is this module of a crate here? The library std has paths of the same form.
fn is_own(module: &str) -> bool {
    module.starts_with("Rattle.") && !module.starts_with("Rattle.std.")
}

/// Is this module of the specifications of a crate here?
pub fn is_own_spec(module: &str) -> bool {
    is_own(module) && module.split('.').nth(2) == Some("specs")
}

fn is_modifier(word: &str) -> bool {
    ["pub", "abbrev", "unfoldable", "mutual"].contains(&word)
}

#[cfg(test)]
mod tests {
    use super::*;

    #[test]
    fn paths_and_names_are_found() {
        let text = "See crates/bits/specs/Bits.antt, (docs/CLAIMS.md), crates/abi/out/libabi.a and crates/NAME/src: `demand-3` of `x`, not \
            `a b-c`, and `Keeps .read-confirmed`, `told_apart-bit`, `bitsOf`, `begin_read`, `GoesByPlan`, `NAME`.";
        assert_eq!(
            paths(text),
            ["crates/bits/specs/Bits.antt", "docs/CLAIMS.md"]
        );
        let found = names(text);
        let named = |l| {
            let of = found.iter().filter(move |(looks, _)| *looks == l);
            of.map(|(_, n)| n.as_str()).collect::<Vec<_>>()
        };
        assert_eq!(
            named(Looks::Definition),
            ["demand-3", "read-confirmed", "told_apart-bit", "bitsOf"]
        );
        assert_eq!(named(Looks::Snake), ["begin_read"]);
        assert_eq!(named(Looks::Type), ["GoesByPlan"]);
    }

    #[test]
    fn definitions_are_told_from_what_only_names_them() {
        let text = "-- of bits_of\nunfoldable pub is_width : N\nis_width w = widest w\n\npub record Keeps (t : T) where\n  ended : t\n";
        assert_eq!(defined(text), ["is_width", "Keeps", "ended"]);
        let text = "use lib.Div.{quot_z, rem_z}\nuse Rattle.bits.specs.Bits.{bit}\nuse Rattle.std.specs.Num.{low}\n";
        assert_eq!(taken(text), ["quot_z", "rem_z", "low"]);
    }
}
