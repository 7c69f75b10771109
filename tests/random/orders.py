"""Whether the calls of a report have a legal order: a search over all orders that keep the order of the ticks."""


def after_queue(state, command, reply):
    """The queue after the command, where it may reply so; None otherwise. Any reply is as good for a pending call."""
    name, *numbers = command.split(" ")
    if name == "put":
        return state + (int(numbers[0]),) if reply in ("done", "pending") else None
    if not state:
        return state if reply in ("empty", "pending") else None
    after = state if name == "peek" else state[1:]
    return after if reply in (f"value {state[0]}", "pending") else None


def after_list(state, command, reply):
    """The set after the command, where it may reply so; None otherwise."""
    name, *numbers = command.split(" ")
    if name == "min":
        right = f"value {min(state, key=int)}" if state else "empty"
        return state if reply in (right, "pending") else None
    (key,) = numbers
    was = key in state
    if name == "add":
        after, right = state | {key}, "no" if was else "yes"
    elif name == "del":
        after, right = state - {key}, "yes" if was else "no"
    else:
        after, right = state, "yes" if was else "no"
    return after if reply in (right, "pending") else None


def after_tree(state, command, reply):
    """The map after the command, where it may reply so; None otherwise. A key that is there keeps its value."""
    name, key, *numbers = command.split(" ")
    values = dict(state)
    if name == "get":
        right = f"value {values[key]}" if key in values else "absent"
    else:
        right = "yes" if (key in values) == (name == "rem") else "no"
    if name == "set":
        values.setdefault(key, *numbers)
    if name == "rem":
        values.pop(key, None)
    return frozenset(values.items()) if reply in (right, "pending") else None


OBJECTS = {
    "queue": (after_queue, ()),
    "list": (after_list, frozenset()),
    "buckets": (after_list, frozenset()),
    "tree": (after_tree, frozenset()),
}


def has_legal_order(client, calls):
    """Whether the answered calls, and some of the pending ones, can be put in an order that keeps the order of their
    ticks, so that each has its reply. A call that is exhausted changes nothing and is left out."""
    after, first = OBJECTS[client]
    calls = [call for call in calls if call.reply != "exhausted"]
    ends = [float("inf") if call.is_pending else call.end for call in calls]
    answered = sum(1 << place for place, call in enumerate(calls) if not call.is_pending)
    seen = set()
    open_states = [(0, first)]
    while open_states:
        placed, state = open_states.pop()
        if placed & answered == answered:
            return True
        if (placed, state) in seen:
            continue
        seen.add((placed, state))
        rest = [place for place in range(len(calls)) if not placed >> place & 1]
        bound = min(ends[place] for place in rest)
        for place in rest:
            call = calls[place]
            if call.begin < bound:
                state_after = after(state, call.command, call.reply)
                if state_after is not None:
                    open_states.append((placed | 1 << place, state_after))
    return False
