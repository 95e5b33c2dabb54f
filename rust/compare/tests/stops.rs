//! Stations that are killed: at every step of generated lives, with the access on offer performed or
//! not. One that kept what it was lent resumes as if it had not stopped. One that lost its power, and
//! kept a list of its unfinished writes, marks them again and never reads a mixture; without the list
//! it does.

use compare::lives::{kill, life, resume, Came, Life, Stop, Then};
use compare::seen::Seen;
use second::generate::Random;

/// Every way to stop in a life: after each of its calls, with the access on offer performed or not.
fn stops(life: &Life) -> impl Iterator<Item = Stop> + '_ {
    (0..=life.calls.len())
        .flat_map(|after| [false, true].map(|performed| Stop { after, performed }))
}

fn lives(seed: u64) -> impl Iterator<Item = Life> {
    let mut random = Random::new(seed);
    std::iter::repeat_with(move || life(&mut random, 12))
        .flatten()
        .take(60)
}

#[test]
fn a_station_that_kept_what_it_was_lent_resumes() {
    let mut seen = Seen::default();
    for life in lives(401) {
        for stop in stops(&life) {
            for then in [Then::GoesOn, Then::GivesUp] {
                seen.note(resume(&life, stop, then));
            }
        }
    }
    seen.require("resumed", ["in hand", "idle"], 1000);
}

/// Kills stations at every step of every life, and counts what each read came to.
fn killed(keeps_a_list: bool) -> Seen {
    let mut random = Random::new(402);
    let mut seen = Seen::default();
    for life in lives(403) {
        for stop in stops(&life) {
            for came in kill(&mut random, &life, stop, keeps_a_list) {
                if came == (Came::AsBefore { wide: true }) {
                    seen.note("of a wide register");
                }
                seen.note(match came {
                    Came::AsBefore { .. } => "as before",
                    Came::HalfWritten => "half-written",
                    Came::Contradicted => "contradicted",
                    Came::OldOrNew => "old or new",
                    Came::Mixture => "a mixture",
                });
            }
        }
    }
    seen
}

#[test]
fn a_station_that_marks_again_never_reads_a_mixture() {
    let seen = killed(true);
    let kinds = ["as before", "of a wide register", "half-written"];
    seen.require("marked again", kinds, 1000);
    // an unfinished write is refused, even where the old value or the new one is whole by luck
    assert_eq!((seen.count("a mixture"), seen.count("old or new")), (0, 0));
}

#[test]
fn a_station_that_keeps_no_list_reads_a_mixture() {
    let seen = killed(false);
    seen.require("no list", ["as before", "old or new", "a mixture"], 50);
    assert_eq!(seen.count("half-written"), 0);
}
