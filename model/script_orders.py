"""What a line of clients may leave: the model of `script_model.py`, in each order in which its threads may take the lock.

`orders_of` gives each answer that the line may print, with the store after it. A thread holds the lock for one step at a time: a
command is applied, a roll begins, one push is made, a place is looked at; the cleaner looks whether a pass is open, or makes one
turn. (The program does both in one holding, which is one of these orders.) So all orders of a few rounds and a pass are some
thousands of states. If there are more than that, nobody knows.

How many turns may give nothing is so large a number here that each such turn may be the last one.
"""

from __future__ import annotations

from dataclasses import dataclass, replace

from script_model import Command, Store, Undetermined, client_key

# With more rounds of all clients together, or with more states, no order is followed.
ROUNDS, STATES = 3, 1500


def ended(steps):
    """How steps end a line, if they do, and the store then; no memory is refused."""
    while True:
        try:
            answer, refused, store = next(steps)
        except StopIteration as end:
            return None, end.value
        if not refused:
            return answer.removesuffix("\n"), store


@dataclass(frozen=True)
class Client:
    """A client's thread."""

    # How many of its calls were answered.
    calls: int = 0
    # What it does next: "calls", "rolls", "looks" or "pushes".
    does: str = "calls"
    # The place of the record that it waits for.
    place: int = 0
    # Its first refusal.
    refusal: str = ""

    def command(self, number):
        kind, value = ("get", b"") if self.calls % 2 else ("put", b"%d" % (self.calls // 2 + 1))
        return Command(kind, 1, client_key(number), value)


@dataclass(frozen=True)
class Cleaner:
    """The cleaner's thread."""

    # How many passes it may still begin. None before it has looked for an open pass.
    left: int | None = None
    # A turn of its opened a failover, and it hasn't seen the end of that.
    is_mending: bool = False
    # What it does next once no pass is to begin: "looks", "turns" or "pushes".
    does: str = "looks"
    is_done: bool = False


@dataclass(frozen=True)
class State:
    store: Store
    cleaner: Cleaner
    clients: tuple
    # The durable count as a fault halted the master. The op of the fault may have been taken, and doesn't count.
    frozen: int | None = None

    # The steps under the lock. Each gives how it was refused, or None, and the state then.

    def step(self, steps):
        refusal, store = ended(steps)
        if refusal == "stopped":
            return refusal, self
        is_halted = store.master.is_halted and self.frozen is None
        return refusal, replace(self, store=store, frozen=self.store.durable() if is_halted else self.frozen)

    def push(self):
        if self.store.master.is_halted:
            return "refused Halted", self
        return self.step(self.store.one_push()) if self.store.next_op() else ("refused Nothing", self)

    def durable(self):
        return self.store.durable() if self.frozen is None else self.frozen

    # A client's step.

    def after_client(self, number, calls):
        """The state after a step of this client, if each has so many calls to make."""
        client = self.clients[number]
        if client.does == "calls":
            return self.with_call(number, client)
        if client.does == "looks":
            if self.durable() <= client.place:
                return self.with_client(number, replace(client, does="pushes"))
            return self.with_client(number, replace(client, calls=client.calls + 1, does="calls"))
        refusal, state = self.push()
        if refusal not in (None, "refused Nothing"):
            return state.with_client(number, replace(client, refusal=refusal))
        return state.with_client(number, replace(client, does="calls" if client.does == "rolls" else "looks"))

    def with_call(self, number, client):
        """The state once a client's command was applied, refused, or found that a roll has to come first."""
        command, master = client.command(number), self.store.master
        refusal = "Halted" if master.is_halted else master.refusal(command, self.store.options)
        if refusal == "Rolling":
            if not master.is_working():
                return self.with_client(number, replace(client, does="rolls"))
            refusal, state = self.step(self.store.begun())
            return state.with_client(number, replace(client, refusal=refusal or ""))
        if refusal:
            return self.with_client(number, replace(client, refusal=f"refused {refusal}"))
        store = replace(self.store, master=master.applied(command)[1])
        return replace(self, store=store).with_client(number, replace(client, does="looks", place=master.records))

    def with_client(self, number, client):
        return replace(self, clients=(*self.clients[:number], client, *self.clients[number + 1:]))

    # The cleaner's step.

    def after_cleaner(self, passes):
        """The states that a step of the cleaner may leave."""
        cleaner, has_pass = self.cleaner, self.store.master.cleaning is not None
        if cleaner.left is None:
            return [self.with_cleaner(left=max(0, passes - has_pass))]
        if cleaner.left == 0 and cleaner.does == "looks":
            if has_pass or cleaner.is_mending:
                return [self.with_cleaner(does="turns" if has_pass else "pushes")]
            return [self.with_cleaner(is_done=True)]
        refusal, state = self.push() if cleaner.does == "pushes" else self.turn()
        if refusal == "refused Nothing":
            state = state.with_cleaner(does="looks", is_mending=False)
            return [state, state.with_cleaner(left=0)]
        if refusal:
            return [state.with_cleaner(is_done=True)]
        is_lost = len(state.store.master.failed) > len(self.store.master.failed)
        has_begun = not has_pass and state.store.master.cleaning is not None
        return [state.with_cleaner(
            does="looks", is_mending=cleaner.is_mending or is_lost, left=max(0, cleaner.left - has_begun))]

    def turn(self):
        """The step that is next."""
        store, master = self.store, self.store.master
        if master.is_halted:
            return "refused Halted", self
        if not master.cleaning and not master.is_working():
            return self.push()
        if master.cleaning:
            return self.step(store.next_of_pass())
        if store.next_free() is not None:
            return self.step(store.one_free())
        chosen = master.chosen(store.options)
        if not chosen or master.pass_refusal(chosen, store.options):
            return "refused Nothing", self
        return self.step(store.pass_begun(chosen))

    def with_cleaner(self, **changes):
        return replace(self, cleaner=replace(self.cleaner, **changes))

    # The end.

    def next_states(self, calls, passes):
        states = [] if self.cleaner.is_done else self.after_cleaner(passes)
        for number, client in enumerate(self.clients):
            if client.calls < calls and not client.refusal:
                states.append(self.after_client(number, calls))
        return states

    def outcome(self, calls):
        """What the line prints, and the store then."""
        refusal = next((it.refusal for it in self.clients if it.refusal), None)
        if refusal == "stopped":
            return "stopped\n", self.store.stopped()[2]
        count = len(self.clients)
        return f"{refusal or f'clients {count} {calls // 2} {count * calls}'}\n", self.store.behind()


def orders_of(stores, clients, rounds, passes):
    """Each answer that the line may print over one of these stores, and the store then. Raises Undetermined if there are too many
    orders."""
    # Clients whose first call is refused make one step.
    is_refused = clients <= ROUNDS and all(it.master.kept() >= it.options.history for it in stores)
    if clients * rounds > ROUNDS and not is_refused:
        raise Undetermined
    left = [State(it, Cleaner(), (Client(),) * clients) for it in stores]
    seen, outcomes = set(left), []
    while left:
        state = left.pop()
        after = state.next_states(2 * rounds, passes)
        if not after:
            outcomes.append(state.outcome(2 * rounds))
        for one in after:
            if one not in seen:
                seen.add(one)
                left.append(one)
        if len(seen) > STATES:
            raise Undetermined
    return outcomes
