//! Calls of the library: what they are lent, and what their codes say.
use crate::error::{Error, Refusal};
use crate::scene::Scene;
use scene_sys as raw;
use std::ptr;

/// The place of a `scene *`: each call takes it, as it may leave another pointer there.
pub(crate) type Handle = *mut *mut raw::scene;

/// Makes a call of the library on a scene, and tells what it came to.
macro_rules! call {
    ($scene:expr, $name:ident $(, $argument:expr)*) => {{
        // SAFETY: the declaration is the header's. The handle is the place of what `scene_open` or `scene_reader` put
        // there, and no other call has it meanwhile, since the scene is lent to this one thread. A pointer to bytes is
        // that of a slice or a `&str`, never null, with its length behind it; one to write to is a `&mut`. All are lent
        // for the call, and the library keeps none.
        let code = unsafe { scene_sys::$name($scene.handle() $(, $argument)*) };
        $scene.came(code)
    }};
}
pub(crate) use call;

/// Why a read told nothing, where nothing else is known.
const UNTOLD: &str = "there is nothing of this to read";

/// How many items a list is given room for at first, so that a short one takes one call.
pub(crate) const ROOM: usize = 64;

/// Where a call tells lists one behind the other: where each ends, at most `count`, and their items, at most `length`,
/// how many lists are told, and how many there are.
pub(crate) struct ListsRoom<T> {
    pub(crate) ends: *mut usize,
    pub(crate) count: usize,
    pub(crate) items: *mut T,
    pub(crate) length: usize,
    pub(crate) told: *mut usize,
    pub(crate) total: *mut usize,
}

/// Lists one behind the other, and where each ends.
pub(crate) struct Lists<T> {
    ends: Vec<usize>,
    items: Vec<T>,
}

impl<T> Lists<T> {
    /// None.
    pub(crate) fn none() -> Lists<T> {
        Lists { ends: Vec::new(), items: Vec::new() }
    }

    /// The list of a number.
    pub(crate) fn list(&self, number: usize) -> &[T] {
        &self.items[self.end(number)..self.ends[number]]
    }

    /// Where the first lists, so many, end.
    fn end(&self, count: usize) -> usize {
        count.checked_sub(1).map_or(0, |last| self.ends[last])
    }
}

impl Lists<u8> {
    /// The text of a number.
    pub(crate) fn text(&self, number: usize) -> String {
        text_of(self.list(number).to_vec())
    }
}

impl Scene {
    /// Where the library's pointer is. A scene isn't `Sync`, so that who has this has it alone.
    pub(crate) fn handle(&self) -> Handle {
        self.at.get()
    }

    /// What a code says. Why it was refused is asked at once, since the next call takes it away.
    pub(crate) fn came(&mut self, code: u32) -> Result<(), Error> {
        match code {
            raw::SCENE_DONE => Ok(()),
            raw::SCENE_REFUSED => Err(self.refusal()),
            raw::SCENE_BAD => Err(Error::Bad(self.reason())),
            other => Err(failed(other)),
        }
    }

    /// The same, where a call is bad for its arguments alone, of which the library keeps no words.
    pub(crate) fn came_unless_bad(&mut self, code: u32, why: &str) -> Result<(), Error> {
        if code == raw::SCENE_BAD { Err(Error::Bad(why.to_owned())) } else { self.came(code) }
    }

    /// Why the last call was refused.
    fn refusal(&mut self) -> Error {
        if let Some(refusal) = self.told_refusal() {
            return Error::Refused(refusal);
        }
        // A scene text has the fault.
        let text = self.text();
        Refusal::of_answer(&text).map_or(Error::Bad(text), Error::Refused)
    }

    /// Why the last call was refused, where it was, and not for a fault of a scene text.
    fn told_refusal(&mut self) -> Option<Refusal> {
        let mut refusal = raw::scene_refusal::default();
        // SAFETY: as in `call!`; `refusal` is lent for the call.
        let code = unsafe { raw::scene_refused(self.handle(), &mut refusal) };
        (code == raw::SCENE_DONE).then(|| Refusal::of_raw(refusal, &self.text()))
    }

    /// Why the last call was bad, in words, which are the text of its answer then; nothing where no memory was found.
    fn reason(&mut self) -> String {
        // SAFETY: as in `call!`.
        match unsafe { raw::scene_bad_reason(self.handle()) } {
            raw::SCENE_DONE => self.text(),
            _ => String::new(),
        }
    }

    /// The text of the last answer.
    pub(crate) fn text(&mut self) -> String {
        let mut room = Vec::new();
        // SAFETY: as in `call!`; where there is no room, null is fine.
        let length = unsafe { raw::scene_answer(self.handle(), ptr::null_mut(), 0) };
        if length == 0 {
            return String::new();
        }
        room.resize(length, 0);
        // SAFETY: as in `call!`; `room` has `length` bytes.
        unsafe { raw::scene_answer(self.handle(), room.as_mut_ptr(), length) };
        text_of(room)
    }

    /// Makes a call that only reads, which is given the handle, and says whether it told something. In the setup there
    /// is nothing to read, so that this ends it, as each call does that is no declaration.
    pub(crate) fn look(&self, mut call: impl FnMut(Handle) -> u32) -> Result<bool, Error> {
        let mut code = call(self.handle());
        if code == raw::SCENE_BAD && self.ends_setup()? {
            code = call(self.handle());
        }
        match code {
            raw::SCENE_DONE => Ok(true),
            raw::SCENE_REFUSED | raw::SCENE_BAD => Ok(false),
            other => Err(failed(other)),
        }
    }

    /// Ends the setup, and says whether it had not ended before.
    pub(crate) fn ends_setup(&self) -> Result<bool, Error> {
        let mut info = raw::scene_info::default();
        // SAFETY: as in `call!`; `info` is lent for the call.
        if unsafe { raw::scene_status(self.handle(), &mut info) } != raw::SCENE_BAD {
            return Ok(false);
        }
        // A step of no frames does nothing else.
        // SAFETY: as in `call!`.
        match unsafe { raw::scene_undo_by(self.handle(), 0) } {
            raw::SCENE_DONE => Ok(true),
            other => Err(failed(other)),
        }
    }

    /// Fills a part of a list of known length: as many items as `part` is to have. Says whether it was told.
    pub(crate) fn fill<T: Copy>(
        &self,
        blank: T,
        length: usize,
        part: &mut Vec<T>,
        call: impl Fn(Handle, *mut T, usize, *mut usize) -> u32,
    ) -> Result<bool, Error> {
        part.resize(length, blank);
        let mut total = 0;
        // The room is as long as it says, and it and the count are lent for the call.
        self.look(|handle| call(handle, part.as_mut_ptr(), length, &mut total))
    }

    /// The list that a call tells, which is given its room and where its length goes; `None` where it tells none.
    pub(crate) fn list<T: Copy>(
        &self,
        blank: T,
        call: impl Fn(Handle, *mut T, usize, *mut usize) -> u32,
    ) -> Result<Option<Vec<T>>, Error> {
        self.list_in(ROOM, blank, call)
    }

    /// The same, with room for so many items at first.
    pub(crate) fn list_in<T: Copy>(
        &self,
        room: usize,
        blank: T,
        call: impl Fn(Handle, *mut T, usize, *mut usize) -> u32,
    ) -> Result<Option<Vec<T>>, Error> {
        let mut items = vec![blank; room];
        let mut length = 0;
        // The room is as long as it says, and it and the count are lent for the call.
        let mut tell = |items: &mut Vec<T>| {
            self.look(|handle| call(handle, items.as_mut_ptr(), items.len(), &mut length))
                .map(|told| told.then_some(length))
        };
        let Some(length) = tell(&mut items)? else {
            return Ok(None);
        };
        if length > items.len() {
            items.resize(length, blank);
            tell(&mut items)?;
        }
        items.truncate(length);
        Ok(Some(items))
    }

    /// The `count` lists that a call tells one behind the other, with room for so many items at first; `None` where it
    /// tells none. The call is given the number of the first list, and where the lists go.
    pub(crate) fn lists<T: Copy>(
        &self,
        count: usize,
        mut room: usize,
        blank: T,
        call: impl Fn(Handle, usize, ListsRoom<T>) -> u32,
    ) -> Result<Option<Lists<T>>, Error> {
        let mut lists = Lists { ends: vec![0; count], items: Vec::new() };
        let (mut from, mut begin) = (0, 0);
        while from < count {
            lists.items.resize(begin + room, blank);
            let (ends, items) = (&mut lists.ends[from..], &mut lists.items[begin..]);
            let (mut told, mut total) = (0, 0);
            // Both rooms are as long as they say, and they and the counts are lent for the call.
            let is_told = self.look(|handle| {
                let (at, length) = (items.as_mut_ptr(), items.len());
                let (ends, count) = (ends.as_mut_ptr(), ends.len());
                let to = ListsRoom { ends, count, items: at, length, told: &mut told, total: &mut total };
                call(handle, from, to)
            })?;
            if !is_told {
                return Ok(None);
            }
            ends[..told].iter_mut().for_each(|end| *end += begin);
            from += told;
            begin = lists.end(from);
            // The next lists, or one alone, are long: so the calls are few.
            room *= 4;
        }
        lists.items.truncate(begin);
        Ok(Some(lists))
    }

    /// The text that a call tells byte by byte, as a list.
    pub(crate) fn told_text(
        &self,
        call: impl Fn(Handle, *mut u8, usize, *mut usize) -> u32,
    ) -> Result<Option<String>, Error> {
        Ok(self.list(0, call)?.map(text_of))
    }
}

/// What is told always, where there is a scene.
pub(crate) fn told<T>(found: Option<T>) -> Result<T, Error> {
    found.ok_or_else(|| Error::Bad(UNTOLD.to_owned()))
}

/// A text of the library.
pub(crate) fn text_of(bytes: Vec<u8>) -> String {
    String::from_utf8(bytes).expect("the library's texts are UTF-8")
}

/// What the codes say by which a call of any sort failed.
pub(crate) fn failed(code: u32) -> Error {
    match code {
        raw::SCENE_NO_MEMORY => Error::NoMemory,
        raw::SCENE_CLOSED => Error::Closed,
        raw::SCENE_UNTOLD => Error::Untold,
        raw::SCENE_LOST => Error::Lost,
        raw::SCENE_SHARED => Error::Shared,
        raw::SCENE_BAD | raw::SCENE_REFUSED => Error::Bad(UNTOLD.to_owned()),
        other => unreachable!("scene.h has no code {other}"),
    }
}
