#!/usr/bin/env python3
"""Sessions of a web site, kept by `ramlog`: each is a dict that ends at a given time.

  clients/python/sessions.py          plays a few visits, and prints what comes of them

The store has no clock, so each session has its end within its value, and who reads it looks at the end. `change` reads a session and
puts it back if its version is still the one that was read. If another one changed it meanwhile, `change` begins again with what that
one wrote, so no change is lost. `read` deletes a session that has ended. Between its look and its delete a visitor may come back, so it
first marks the session as ended, by its version, and deletes it only if it could.
"""

import json
import secrets
import time

import ramlog


class Sessions:
    """Sessions over a store. `now` gives the time in seconds, and a session lives for so many seconds after each visit."""

    def __init__(self, store, seconds=1800, now=time.time):
        self.store, self.seconds, self.now = store, seconds, now

    def begin(self, **data):
        """Begins a session with this data, and gives its name, which nobody can guess."""
        while True:
            name = secrets.token_bytes(16)
            try:
                self.store.new(name, self._written(data))
                return name
            except ramlog.Mismatch:
                pass

    def read(self, name):
        """The data of a session, or None if it has ended."""
        found = self.store.get(name)
        data = found and self._data(found)
        if found and data is None:
            self._end(name, found.version)
        return data

    def change(self, name, change):
        """Visits a session: `change` gets its data, and gives the new one. False if the session has ended."""
        while True:
            found = self.store.get(name)
            data = found and self._data(found)
            if data is None:
                return False
            try:
                self.store.cas(name, self._written(change(data)), found.version)
                return True
            except ramlog.Mismatch:
                pass

    def _end(self, name, version):
        """Deletes a session, unless it was changed since it had this version."""
        try:
            self.store.cas(name, b"{}", version)
        except ramlog.Mismatch:
            return
        self.store.delete(name)

    def _written(self, data):
        return json.dumps({"until": self.now() + self.seconds, "data": data}).encode()

    def _data(self, found):
        """The data of a value, or None if it has ended or is marked."""
        session = json.loads(found.value)
        return session["data"] if session.get("until", 0) > self.now() else None


def main():
    clock = [0]
    with ramlog.Store() as store:
        sessions = Sessions(store, seconds=60, now=lambda: clock[0])
        ada, bob = sessions.begin(user="Ada", cart=[]), sessions.begin(user="Bob", cart=[])
        clock[0] = 50
        sessions.change(ada, lambda data: {**data, "cart": data["cart"] + ["tea"]})
        clock[0] = 100
        print("Ada:", sessions.read(ada))
        print("Bob:", sessions.read(bob))
        store.crash()
        store.lose(1)
        print("recovered:", len(store.recover()))
        print("Ada:", sessions.read(ada))


if __name__ == "__main__":
    main()
