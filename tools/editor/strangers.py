"""Connections that haven't shown the token yet: only so many may wait, and each only so long."""
import socket
import threading
import time

MOST_STRANGERS = 64
SECONDS_STRANGE = 10


class Strangers:
    """Where there are more, the one that came first is cut off, so whoever knows the token always gets in."""

    def __init__(self):
        self.came_at, self.lock = {}, threading.Lock()

    def came(self, connection):
        with self.lock:
            self.came_at[connection] = time.monotonic()
            more = len(self.came_at) - MOST_STRANGERS
            self.cut_off(list(self.came_at)[: max(0, more)])

    def forget(self, connection):
        """It has shown the token, or is to be closed."""
        with self.lock:
            self.came_at.pop(connection, None)

    def cut_off_late(self):
        with self.lock:
            since = time.monotonic() - SECONDS_STRANGE
            self.cut_off([connection for connection, came in self.came_at.items() if came < since])

    def cut_off(self, connections):
        """Ends them for the threads that read from them, which then close them."""
        for connection in connections:
            del self.came_at[connection]
            try:
                connection.shutdown(socket.SHUT_RDWR)
            except OSError:
                # it has gone by itself
                pass
