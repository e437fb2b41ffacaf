//! The faults of docs/MODEL.md, by name.
use std::fmt;

/// Declares the faults with their numbers, so that each is named once.
macro_rules! faults {
    ($($(#[doc = $told:literal])+ $name:ident = $number:literal,)*) => {
        /// A fault of docs/MODEL.md, by its name. Others may come with a newer library, which are `Other` until this
        /// crate names them.
        ///
        /// ```
        /// use scene::{Error, Fault, Scene};
        ///
        /// let error = Scene::new()?.undo().unwrap_err();
        /// let fault = error.refusal().unwrap().fault;
        /// assert_eq!(fault, Fault::NothingToUndo);
        /// assert_eq!((fault.number(), fault.name()), (15, "NothingToUndo"));
        /// # Ok::<(), Error>(())
        /// ```
        #[derive(Clone, Copy, Debug, PartialEq, Eq, Hash)]
        #[non_exhaustive]
        pub enum Fault {
            $($(#[doc = $told])+ $name,)*
            /// One that this crate doesn't know, by its number.
            Other(u32),
        }

        impl Fault {
            /// The fault of a number.
            pub(crate) fn of_number(number: u32) -> Fault {
                match number {
                    $($number => Fault::$name,)*
                    other => Fault::Other(other),
                }
            }

            /// Its number.
            #[must_use]
            pub fn number(self) -> u32 {
                match self {
                    $(Fault::$name => $number,)*
                    Fault::Other(number) => number,
                }
            }

            /// Its name, and `Unknown` for one that this crate doesn't know.
            #[must_use]
            pub fn name(self) -> &'static str {
                match self {
                    $(Fault::$name => stringify!($name),)*
                    Fault::Other(_) => "Unknown",
                }
            }
        }
    };
}

faults! {
    /// The entity isn't alive.
    NoSuchEntity = 1,
    /// A despawn of an entity with children.
    HasChildren = 2,
    /// The entity hasn't the kind.
    NotPresent = 3,
    /// A value hasn't the shape of its kind.
    WrongShape = 4,
    /// No kind has the number.
    NoSuchKind = 5,
    /// A spawn names a kind twice.
    DuplicateKind = 6,
    /// An entity is to be its own parent.
    SelfParent = 7,
    /// An entity is to go below its own descendant.
    Cycle = 8,
    /// The entity has no parent.
    NoParent = 9,
    /// No resource has the name.
    NoSuchResource = 10,
    /// No index is free, and the limit is reached.
    EntitiesFull = 11,
    /// The frame has spawned no such entity so far.
    BadLocal = 12,
    /// The tick, or at an undo the count of rewinds, can't rise.
    TickFull = 13,
    /// A sum of a system is no integer of 64 bits. Its field is the row's entity.
    Overflow = 14,
    /// There is nothing to undo.
    NothingToUndo = 15,
    /// There is nothing to redo.
    NothingToRedo = 16,
    /// There were as many calls as the limit says. Its field is that.
    HistoryFull = 17,
    /// Something was undone since the moment. Its field is how many undos there were.
    Rewound = 18,
    /// A call that doesn't wait found the state in use.
    Busy = 19,
    /// Memory was wanting.
    NoMemory = 20,
    /// A system writes what another of its phase reads or writes. Its fields are the phase and the two.
    Conflict = 21,
    /// A system breaks a rule of schedules. Its fields are the phase and the system.
    BadRule = 22,
    /// The schedule was made for other kinds.
    OtherSchema = 23,
    /// The frame has as many commands as it may.
    QueueFull = 24,
    /// The name isn't good.
    BadName = 30,
    /// A kind has the name already.
    KindTaken = 31,
    /// There are 64 kinds.
    KindsFull = 32,
    /// A scene text makes no valid world. Its field is the rule.
    BadWorld = 40,
    /// A record of a scene text doesn't fit. Its fields are the frame and the delta.
    BadRecord = 41,
    /// The text isn't JSON.
    NotJson = 50,
    /// An object of a scene text has a key that it may not have. Its field is the path.
    UnknownKey = 51,
    /// A value of a scene text isn't of its form. Its field is the path.
    BadField = 52,
    /// The version of a scene text isn't read. Its field is that.
    BadVersion = 53,
    /// A reader failed.
    ReadFault = 54,
    /// A writer failed.
    WriteFault = 55,
    /// A text is above its limits.
    TooLong = 56,
}

impl fmt::Display for Fault {
    fn fmt(&self, f: &mut fmt::Formatter<'_>) -> fmt::Result {
        write!(f, "{} {}", self.number(), self.name())
    }
}

#[cfg(test)]
mod tests {
    use super::Fault;
    use scene_sys as raw;
    use std::ptr;

    #[test]
    fn faults_have_the_names_of_the_library() {
        for number in 0..1000 {
            let mut room = [0; 32];
            // SAFETY: `room` has as many bytes, and is lent for the call; where there is no room, null is fine.
            let (length, again) = unsafe {
                let length = raw::scene_fault_name(number, room.as_mut_ptr(), room.len());
                (length, raw::scene_fault_name(number, ptr::null_mut(), 0))
            };
            let found = std::str::from_utf8(&room[..length]).unwrap();
            let fault = Fault::of_number(number);
            assert_eq!(if found.is_empty() { "Unknown" } else { found }, fault.name());
            assert_eq!((again, fault.number()), (length, number));
        }
    }
}
