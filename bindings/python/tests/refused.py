"""Refused memory: a call raises MemoryError and changes nothing. Four threads at once, with refuse.c preloaded; one alone, by CPython's own hooks."""
import ctypes
import random
import sys
import threading

from topscedar import SortedArena


def fill(arena, random_, mine, seed, i):
    """One random call; what was inserted is kept in `mine`. A refused one leaves the arena as it was."""
    choice = random_.random()
    try:
        if choice < 0.6 or not mine:
            value = (seed, i)
            mine.append((arena.insert(random_.randrange(1000), value), value))
        elif choice < 0.7:
            token, value = mine.pop()
            assert arena.remove(token)[1] == value
        elif choice < 0.9:
            token, value = random_.choice(mine)
            arena.rekey(token, random_.randrange(1000))
            assert arena.value(token) == value
        else:
            copy = arena.copy()
            assert all(copy.value(token) == value for token, value in mine)
    except MemoryError:
        return 1
    return 0


def by_threads(refuse):
    """Four threads, each with an arena of its own beside one that all share."""
    shared, counts, failures = SortedArena(), [0] * 4, []
    arenas = [SortedArena() for _ in counts]

    def work(seed):
        try:
            random_, alone, mine, ours = random.Random(seed), arenas[seed], [], []
            for i in range(3000):
                arena, held = (alone, mine) if i % 2 else (shared, ours)
                counts[seed] += fill(arena, random_, held, seed, i)
                if i % 500 == 0:
                    alone.clear()
                    mine.clear()
            assert sorted(value for _, value in mine) == sorted(alone.values())
        except BaseException as error:
            failures.append(error)

    refuse.topscedar_refuse(1)
    threads = [threading.Thread(target=work, args=(seed,)) for seed in range(4)]
    for thread in threads:
        thread.start()
    for thread in threads:
        thread.join()
    refuse.topscedar_refuse(0)
    assert not failures, failures
    assert list(shared) == sorted(shared)
    assert refuse.topscedar_refusals() >= sum(counts) > 0
    print(f"refused by threads: {sum(counts)} calls of 12000")


def one_by_one(hooks):
    """Each request of a call refused in turn, for each call that takes memory of Python's."""
    calls = {
        "insert": lambda arena: arena.insert(7, "x"),
        "replace": lambda arena: arena.__setitem__(3, "x"),
        "set_value": lambda arena: arena.set_value(arena.first()[0], "x"),
        "set_value of a pair that is held": lambda arena: arena.set_value(tokens[0], "x"),
        "rekey": lambda arena: arena.rekey(tokens[1], 100),
        "extend": lambda arena: arena.extend_sorted([100, 101], ["x", "y"]),
        "update": lambda arena: arena.update([(5, "x"), (1, "y")]),
        "pop_until": lambda arena: arena.pop_until(4),
        "pop_first": lambda arena: arena.pop_first(),
        "remove": lambda arena: arena.remove(arena.first()[0]),
        "copy": lambda arena: arena.copy(),
        "items": lambda arena: list(arena.items()),
        "clear": lambda arena: arena.clear(),
    }
    refused = 0
    for name, call in calls.items():
        for request in range(40):
            arena = SortedArena((key, str(key)) for key in range(9))
            before = list(arena.entries())
            tokens, held = [token for token, _, _ in before], list(arena.items())
            hooks.set_nomemory(request, request + 1)
            try:
                call(arena)
                is_refused = False
            except MemoryError:
                is_refused = True
            finally:
                hooks.remove_mem_hooks()
            refused += is_refused
            assert not is_refused or list(arena.entries()) == before, (name, request)
            assert held == [(key, value) for _, key, value in before]
            assert list(arena) == sorted(arena)
    assert refused > 0
    print(f"refused one by one: {refused} calls")


if __name__ == "__main__":
    if len(sys.argv) > 1:
        by_threads(ctypes.CDLL(sys.argv[1]))
    try:
        import _testcapi
    except ImportError:
        print("refused one by one: this Python has no hooks")
    else:
        one_by_one(_testcapi)
