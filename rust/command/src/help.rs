//! What `--help` tells.

/// The commands, as they are typed.
pub const COMMANDS: [&str; 5] = ["check", "explain", "map", "replay", "tokens"];

pub const HELP: &str = "\
desfanuk: register descriptions in Devil, judged by proved programs

  desfanuk check [--json] FILE..      the verdict on each description, a line each
  desfanuk explain FILE               where it is refused and why, or a map of it
  desfanuk map [--json] FILE          who holds which bit of which register
  desfanuk map --html FILE            a page of it for a browser, with every access
  desfanuk replay FILE SCRIPT         a station's calls, played over a description
  desfanuk replay --framed INPUT      scripts as the tests have them, each behind its text
  desfanuk tokens FILE                the tokens, and whether the text reads

`-` is standard input, and `--` ends the options. Colour is for terminals, and not
where NO_COLOR is set.

A refused description has FILE:LINE:COLUMN: refused N: .. on its first line
(docs/REFUSALS.md lists every N). The exit code is 0 for good, 1 for refused, and 2
for trouble: no such file, a failed read or write, a call that is none. Trouble is
never a verdict.

A script has a call on each line, and `;` begins a comment. A variable goes by its
name or its index, a number is decimal or 0x..:

  open N0 N1 ..             opens the station; each register's number at power-on
  read V, write V VALUE     begins to read or write a variable: offers an access
  calibrated V GAIN OFFSET  begins a read in units, as calibrated light 0.5 1024
  confirm N                 the access was performed; N is what was read
  abandon                   the operation is given up
  state, lookup NAME        what the station holds; a variable's index
  lend .., hold ..          for tests: rust/second/README.md

Examples:
  ./desfanuk check boards/scoring.devil boards/lamp.devil
  ./desfanuk check --json boards/scoring.devil
  sed 's/int(12)/int(11)/' boards/scoring.devil | ./desfanuk explain -
  ./desfanuk map boards/uart16550.devil
  ./desfanuk map --json boards/scoring.devil
  ./desfanuk map --html boards/scoring.devil > map.html
  ./desfanuk replay boards/scoring.devil boards/scoring.script
  printf 'open 0 0 0 0 0\\nwrite score 1443\\n' | ./desfanuk replay boards/scoring.devil -
  ./desfanuk tokens boards/scoring.devil
";
