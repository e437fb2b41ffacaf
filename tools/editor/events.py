"""What happens, as it is sent to all tabs: each reads on from its own place, so a slow one holds nobody up."""
import threading
from collections import deque

MOST_EVENTS = 10_000
MOST_BYTES = 64 * 2**20


def event_bytes(number, text):
    """An event as a stream has it, by its lines of JSON."""
    data = text.replace("\n", "\ndata: ")
    return f"id: {number}\ndata: {data}\n\n".encode()


class Events:
    """The last events, numbered from 1. Those that are older, or beyond so many bytes, are dropped."""

    def __init__(self):
        self.last, self.kept, self.size = 0, deque(), 0
        self.news, self.is_closed = threading.Condition(), False

    def add(self, text):
        """Adds an event."""
        with self.news:
            self.last += 1
            self.kept.append(event_bytes(self.last, text))
            self.size += len(self.kept[-1])
            while len(self.kept) > MOST_EVENTS or (self.size > MOST_BYTES and len(self.kept) > 1):
                self.size -= len(self.kept.popleft())
            self.news.notify_all()

    def after(self, cursor, seconds):
        """The events after a cursor, once there are some, or none after so many seconds; None where some are gone."""
        with self.news:
            if cursor == self.last and not self.is_closed:
                self.news.wait(seconds)
            count = self.last - cursor
            if not 0 <= count <= len(self.kept):
                return None
            return [self.kept[place - count] for place in range(count)]

    def close(self):
        with self.news:
            self.is_closed = True
            self.news.notify_all()
