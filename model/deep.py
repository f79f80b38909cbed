"""Functions that call each other deeper than Python's own stack: each is a generator that yields the calls it needs."""


def finish(call):
    """The result of such a call."""
    open_calls, result = [call], None
    while open_calls:
        try:
            open_calls.append(open_calls[-1].send(result))
            result = None
        except StopIteration as ended:
            open_calls.pop()
            result = ended.value
    return result
