//! Kinds of components, sets of them, and filters.
use crate::value::Value;
use std::fmt;
use std::ops::BitOr;
use std::slice;

/// A kind of components of one scene, by its number. [`Scene::declare`](crate::Scene::declare) gives it, and
/// [`Scene::kind`](crate::Scene::kind) finds it by its name. In another scene it names the kind of that number there,
/// if any.
///
/// ```
/// # use scene::{Error, Scene, Shape};
/// let mut scene = Scene::new()?;
/// let health = scene.declare("Health", Shape::Int)?;
/// assert_eq!(scene.kind("Health"), Some(health));
/// # Ok::<(), Error>(())
/// ```
#[derive(Clone, Copy, Debug, PartialEq, Eq, PartialOrd, Ord, Hash)]
pub struct Kind(pub(crate) u8);

impl Kind {
    /// Its number: kinds are counted from 0, in the order in which they were declared.
    ///
    /// ```
    /// # use scene::{Error, Scene, Shape};
    /// # let mut scene = Scene::new()?;
    /// scene.declare("Name", Shape::Text)?;
    /// assert_eq!(scene.declare("Health", Shape::Int)?.number(), 1);
    /// # Ok::<(), Error>(())
    /// ```
    #[must_use]
    pub fn number(self) -> u8 {
        self.0
    }

    /// A component of this kind, as a spawn takes it.
    ///
    /// ```
    /// # use scene::{Error, Scene, Shape, Value};
    /// # let mut scene = Scene::new()?;
    /// let health = scene.declare("Health", Shape::Int)?;
    /// assert_eq!(health.of(9), (health, Value::Int(9)));
    /// scene.spawn(&[health.of(9)])?;
    /// # Ok::<(), Error>(())
    /// ```
    #[must_use]
    pub fn of(self, value: impl Into<Value>) -> (Kind, Value) {
        (self, value.into())
    }
}

impl AsRef<[Kind]> for Kind {
    fn as_ref(&self) -> &[Kind] {
        slice::from_ref(self)
    }
}

/// A set of kinds, as that of a table.
///
/// ```
/// # use scene::{Error, KindSet, Scene, Shape};
/// # let mut scene = Scene::new()?;
/// let name = scene.declare("Name", Shape::Text)?;
/// let health = scene.declare("Health", Shape::Int)?;
/// let set = KindSet::of(&[health, name]);
/// assert_eq!((set.bits(), set.contains(health)), (3, true));
/// assert_eq!(set.kinds().collect::<Vec<_>>(), [name, health]);
/// assert_eq!(KindSet::of(&[health]) | KindSet::of(&[name]), set);
/// # Ok::<(), Error>(())
/// ```
#[derive(Clone, Copy, Default, PartialEq, Eq, PartialOrd, Ord, Hash)]
pub struct KindSet(u64);

impl KindSet {
    /// The set of some kinds.
    #[must_use]
    pub fn of(kinds: &[Kind]) -> KindSet {
        kinds.iter().copied().collect()
    }

    pub(crate) fn of_bits(bits: u64) -> KindSet {
        KindSet(bits)
    }

    /// Its number: the kind of number k is bit k.
    #[must_use]
    pub fn bits(self) -> u64 {
        self.0
    }

    /// Whether it has a kind.
    #[must_use]
    pub fn contains(self, kind: Kind) -> bool {
        self.0 >> kind.0 & 1 != 0
    }

    /// Whether it has no kind.
    #[must_use]
    pub fn is_empty(self) -> bool {
        self.0 == 0
    }

    /// Its kinds, by number.
    pub fn kinds(self) -> impl Iterator<Item = Kind> {
        (0..64).map(Kind).filter(move |kind| self.contains(*kind))
    }
}

impl BitOr for KindSet {
    type Output = KindSet;

    fn bitor(self, other: KindSet) -> KindSet {
        KindSet(self.0 | other.0)
    }
}

impl FromIterator<Kind> for KindSet {
    fn from_iter<I: IntoIterator<Item = Kind>>(kinds: I) -> KindSet {
        // A scene has 64 kinds at most, so the number of each is that of a bit.
        KindSet(kinds.into_iter().fold(0, |bits, kind| bits | 1 << kind.0))
    }
}

impl fmt::Debug for KindSet {
    fn fmt(&self, f: &mut fmt::Formatter<'_>) -> fmt::Result {
        f.debug_set().entries(self.kinds().map(Kind::number)).finish()
    }
}

/// Which entities are meant: those that have all kinds of one set, and none of another.
///
/// ```
/// # use scene::{Error, Filter, Scene, Shape};
/// # let mut scene = Scene::new()?;
/// let health = scene.declare("Health", Shape::Int)?;
/// let hidden = scene.declare("Hidden", Shape::Tag)?;
/// scene.spawn(&[health.of(9)])?;
/// scene.spawn(&[health.of(9), hidden.of(())])?;
/// assert_eq!(scene.tables(Filter::all())?.len(), 2);
/// assert_eq!(scene.tables(Filter::need(&[health]).without(&[hidden]))?.len(), 1);
/// # Ok::<(), Error>(())
/// ```
#[derive(Clone, Copy, Debug, Default, PartialEq, Eq, Hash)]
pub struct Filter {
    /// The kinds that an entity has to have.
    pub need: KindSet,
    /// The kinds that it mustn't have.
    pub without: KindSet,
}

impl Filter {
    /// All entities.
    #[must_use]
    pub fn all() -> Filter {
        Filter::default()
    }

    /// Those that have all of some kinds.
    #[must_use]
    pub fn need(kinds: &[Kind]) -> Filter {
        Filter { need: KindSet::of(kinds), ..Filter::default() }
    }

    /// Of these, those that have none of some kinds.
    #[must_use]
    pub fn without(self, kinds: &[Kind]) -> Filter {
        Filter { without: self.without | KindSet::of(kinds), ..self }
    }
}
