//! A description in use, and its variables: by its type a variable belongs to one description.

use std::fmt;
use std::marker::PhantomData;
use std::ops::{Deref, RangeInclusive};

use crate::description::VARIABLE_ENTRY;
use crate::layout::entry;
use crate::{raw, Description, Kind};

/// A description in use ([`Description::with`]): it finds variables and opens stations, and they belong
/// to it. No other description in use has this `'d`, and none can be made to have it.
///
/// What keeps a station and its variables together has the same `'d`:
///
/// ```
/// use desfanuk::{Described, Station, Variable};
///
/// struct Desk<'d> {
///     station: Station<'d>,
///     score: Variable<'d>,
/// }
///
/// impl<'d> Desk<'d> {
///     fn open(scoring: Described<'d>) -> Option<Desk<'d>> {
///         let score = scoring.variable("score")?;
///         let station = Station::open(scoring, &vec![0; scoring.registers()]).ok()?;
///         Some(Desk { station, score })
///     }
/// }
/// ```
#[derive(Clone, Copy, Debug)]
pub struct Described<'d> {
    description: &'d Description,
    /// Makes `'d` invariant: it can be neither shortened nor lengthened to that of another description.
    only: PhantomData<fn(&'d ()) -> &'d ()>,
}

impl Description {
    /// Puts the description to use: its variables are found, and stations opened, inside of `work`.
    ///
    /// ```
    /// use desfanuk::{Answer, Described, Description, Refused, Station};
    ///
    /// fn first_access(scoring: Described<'_>) -> Answer {
    ///     let score = scoring.variable("score").expect("it has a score");
    ///     let mut station = Station::open(scoring, &[0; 5]).expect("a number for each register");
    ///     station.begin_read(score)
    /// }
    ///
    /// let text = include_str!("../../../boards/scoring.devil");
    /// let answer = Description::load(text)?.with(first_access);
    /// assert!(matches!(answer, Answer::Offer(_)));
    /// # Ok::<(), Refused>(())
    /// ```
    ///
    /// The variable of another description is refused by the compiler, however alike the two may be:
    ///
    /// ```compile_fail,E0521
    /// # use desfanuk::{Description, Station};
    /// # let text = include_str!("../../../boards/scoring.devil");
    /// # let scoring = Description::load(text).expect("a good description");
    /// # let other = Description::load(text).expect("a good description");
    /// scoring.with(|scoring| {
    ///     other.with(|other| {
    ///         let score = other.variable("score").expect("it has a score");
    ///         let mut station = Station::open(scoring, &[0; 5]).expect("a number for each register");
    ///         let _ = station.begin_read(score); // E0521: `other` escapes
    ///     })
    /// });
    /// ```
    ///
    /// With `scoring.variable` in place of `other.variable` it compiles:
    ///
    /// ```
    /// # use desfanuk::{Description, Station};
    /// # let text = include_str!("../../../boards/scoring.devil");
    /// # let scoring = Description::load(text).expect("a good description");
    /// # let other = Description::load(text).expect("a good description");
    /// scoring.with(|scoring| {
    ///     other.with(|_| {
    ///         let score = scoring.variable("score").expect("it has a score");
    ///         let mut station = Station::open(scoring, &[0; 5]).expect("a number for each register");
    ///         let _ = station.begin_read(score);
    ///     })
    /// });
    /// ```
    pub fn with<R>(&self, work: impl for<'d> FnOnce(Described<'d>) -> R) -> R {
        work(Described {
            description: self,
            only: PhantomData,
        })
    }
}

impl<'d> Described<'d> {
    /// The variable of this name.
    pub fn variable(self, name: &str) -> Option<Variable<'d>> {
        let table = self.description.tables().words().variables;
        let found = raw::lookup(self.description.text(), table, name.as_bytes());
        found.map(|index| Variable { of: self, index })
    }

    /// The variable of this index, from 0 in the order of the text, if there is one.
    pub fn variable_at(self, index: usize) -> Option<Variable<'d>> {
        (index < self.variables()).then_some(Variable { of: self, index })
    }

    /// Each of its variables, in the order of the text.
    pub fn each_variable(self) -> impl Iterator<Item = Variable<'d>> {
        (0..self.variables()).map(move |index| Variable { of: self, index })
    }
}

impl Deref for Described<'_> {
    type Target = Description;

    fn deref(&self) -> &Description {
        self.description
    }
}

/// A variable of the description in use that has this `'d`.
#[derive(Clone, Copy)]
pub struct Variable<'d> {
    of: Described<'d>,
    index: usize,
}

impl<'d> Variable<'d> {
    /// Its index, from 0 in the order of the text: what can be kept on file
    /// ([`Described::variable_at`]).
    pub fn index(self) -> usize {
        self.index
    }

    /// Its name in the text.
    pub fn name(self) -> &'d str {
        self.of.description.variable_name(self.index)
    }

    /// The values that its type has, from the least to the greatest. A write of another one is refused:
    /// below the least by 27, above the greatest by 55.
    pub fn range(self) -> RangeInclusive<i64> {
        let width = self.width();
        match self.kind() {
            Kind::SignedInt => -(1 << (width - 1))..=(1 << (width - 1)) - 1,
            Kind::Int | Kind::Bool => 0..=(1 << width) - 1,
        }
    }

    /// Its entry of the table of variables.
    pub(crate) fn words(self) -> &'d [u32] {
        let table = self.of.description.tables().words().variables;
        entry(table, VARIABLE_ENTRY, self.index).expect("a variable of this description")
    }
}

/// Of one description, by the type.
impl PartialEq for Variable<'_> {
    fn eq(&self, other: &Self) -> bool {
        self.index == other.index
    }
}

impl Eq for Variable<'_> {}

impl fmt::Debug for Variable<'_> {
    fn fmt(&self, f: &mut fmt::Formatter<'_>) -> fmt::Result {
        f.debug_tuple("Variable").field(&self.name()).finish()
    }
}
