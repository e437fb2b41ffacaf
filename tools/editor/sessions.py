"""Which tab is which session."""
import itertools
import time

TABS = range(1, 8)
SECONDS_WITHOUT_STREAM = 5
SECONDS_TO_LOAD = 30
# Where all are taken, a tab that hasn't listened for so long gives way to a new one: its page was loaded anew.
SECONDS_TO_LISTEN = 8


class Seat:
    """A tab's place: how many streams of events it has open, and when it is free where it has none. Each join has one
    of its own, so a page that comes to its end late doesn't end the one that was loaded after it."""

    def __init__(self, number, tab):
        self.number, self.tab = number, tab
        self.streams, self.free_at = 0, time.monotonic() + SECONDS_TO_LOAD
        self.taken_at = time.monotonic()

    def opened(self):
        self.streams += 1

    def closed(self):
        self.streams -= 1
        self.free_at = time.monotonic() + SECONDS_WITHOUT_STREAM

    def gives_way(self):
        return self.streams == 0 and time.monotonic() > self.taken_at + SECONDS_TO_LISTEN

    def is_left(self):
        return self.streams == 0 and time.monotonic() > self.free_at


class Sessions:
    """The sessions that tabs have, and those that tabs which are gone had, the one gone longest first: each has its own
    again if it comes before another tab needs it."""

    def __init__(self):
        self.seats, self.gone, self.seat_numbers = {}, {}, itertools.count(1)

    def numbers(self):
        return sorted(self.seats)

    def join(self, tab, wanted):
        """A session for a tab, or None where seven others are there. A tab whose id isn't known gets the session that
        it wants where that is free."""
        session = self.session_of(tab)
        free = [number for number in TABS if number not in self.seats and number not in self.gone]
        if session is None:
            session = wanted if wanted in free else next(iter([*free, *self.gone]), None)
        if session is None:
            session = next((number for number, seat in self.seats.items() if seat.gives_way()), None)
        return None if session is None else self.take(session, tab)

    def session_of(self, tab):
        """The session that the tab of this id has or had, or None."""
        if tab is None:
            return None
        tabs = {**self.gone, **{session: seat.tab for session, seat in self.seats.items()}}
        return next((session for session, each in tabs.items() if each == tab), None)

    def take(self, session, tab):
        self.gone.pop(session, None)
        self.seats[session] = Seat(next(self.seat_numbers), tab)
        return session

    def take_again(self, session):
        """Gives a session to the tab that uses it though it was free."""
        return self.take(session, self.gone.get(session))

    def free(self, session):
        tab = self.seats.pop(session).tab
        if tab is not None:
            self.gone[session] = tab

    def leave(self, number):
        """Frees the session of a seat, and answers whether somebody left."""
        sessions = [session for session, seat in self.seats.items() if seat.number == number]
        for session in sessions:
            self.free(session)
        return bool(sessions)

    def free_left(self):
        """Frees the sessions of tabs that are gone, and answers whether there were any."""
        left = [session for session, seat in self.seats.items() if seat.is_left()]
        for session in left:
            self.free(session)
        return bool(left)
