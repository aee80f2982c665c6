"""ns an operation, the least of some interleaved rounds, beside sortedcontainers: python bench/speed.py [ROUNDS] [NAME=FOLDER ..]

Each NAME=FOLDER is one more build of the package `topscedar`, that is measured in a column of its own.
"""
import os
import random
import sys
import time

from sortedcontainers import SortedDict, SortedKeyList

clock, best = time.perf_counter, {}


def load(name, folder):
    for it in [it for it in sys.modules if it.split(".")[0] == "topscedar"]:
        del sys.modules[it]
    sys.path.insert(0, folder)
    import topscedar

    assert os.path.realpath(topscedar.__file__).startswith(os.path.realpath(folder)), topscedar.__file__
    sys.path.pop(0)
    return topscedar.SortedArena


def t(who, what, n, f):
    before = clock()
    result = f()
    took = (clock() - before) / n * 1e9
    best[what, who] = min(best.get((what, who), 1e18), took)
    return result


def arena(who, make, keys, more, perm, n):
    a = make()
    ins, h = a.insert, n // 2
    ps = t(who, "insert", n, lambda: [ins(k, 1) for k in keys])
    f = a.find
    t(who, "find by key", n, lambda: [f(keys[i]) for i in perm])
    t(who, "key in it", n, lambda: [keys[i] in a for i in perm])
    get, put = a.value, a.set_value
    t(who, "get by handle", n, lambda: [get(ps[i]) for i in perm])
    t(who, "set by handle", n, lambda: [put(ps[i], 2) for i in perm])
    t(who, "iterate keys", n, lambda: sum(k for k in a))
    t(who, "iterate values", n, lambda: sum(v for v in a.values()))
    t(who, "iterate items", n, lambda: sum(v for _, v in a.items()))
    t(who, "list(items)", n, lambda: list(a.items()))
    t(who, "backwards", n, lambda: sum(v for v in reversed(a.values())))
    rk, rm, pf = a.rekey, a.remove, a.pop_first
    t(who, "rekey", n, lambda: [rk(ps[i], more[i]) for i in perm])
    low, high = sorted(more)[n // 4], sorted(more)[n // 4 * 3]
    t(who, "range of n/2", h, lambda: sum(v for v in a.irange_values(low, high)))
    t(who, "erase by handle", h, lambda: [rm(ps[i]) for i in perm[:h]])
    t(who, "pop first", h // 2, lambda: [pf() for _ in range(h // 2)])
    t(who, "pop until", len(a), lambda: a.pop_until(2**62))
    sk, ones = sorted(keys), [1] * n
    a = t(who, "build sorted", n, lambda: make.from_sorted(sk, ones))
    t(who, "len", n, lambda: [len(a) for _ in range(n)])
    pairs = list(zip(keys, ones))
    b = t(who, "build any", n, lambda: make(pairs))
    t(who, "free", n, lambda: b.clear())


def keylist(who, keys, more, perm, n):  # the handle is the item [key, value] itself
    items = SortedKeyList(key=lambda x: x[0])
    add, h = items.add, n // 2

    def ins():
        made = []
        for k in keys:
            x = [k, 1]
            add(x)
            made.append(x)
        return made

    ps = t(who, "insert", n, ins)
    b = items.bisect_key_left
    t(who, "find by key", n, lambda: [items[b(keys[i])] for i in perm])
    t(who, "get by handle", n, lambda: [ps[i][1] for i in perm])
    t(who, "iterate keys", n, lambda: sum(x[0] for x in items))
    t(who, "iterate values", n, lambda: sum(x[1] for x in items))
    t(who, "iterate items", n, lambda: sum(v for _, v in items))
    t(who, "list(items)", n, lambda: list(items))
    t(who, "backwards", n, lambda: sum(x[1] for x in reversed(items)))

    def rk():
        for i in perm:
            x = ps[i]
            items.remove(x)
            x[0] = more[i]
            add(x)

    t(who, "rekey", n, rk)
    low, high = sorted(more)[n // 4], sorted(more)[n // 4 * 3]
    t(who, "range of n/2", h, lambda: sum(x[1] for x in items.irange_key(low, high)))
    rm = items.remove
    t(who, "erase by handle", h, lambda: [rm(ps[i]) for i in perm[:h]])
    t(who, "pop first", h // 2, lambda: [items.pop(0) for _ in range(h // 2)])

    def pu():
        i = items.bisect_key_right(2**62)
        due = list(items.islice(0, i))
        del items[:i]
        return due

    t(who, "pop until", len(items), pu)
    sk = [[k, 1] for k in sorted(keys)]
    t(who, "build sorted", n, lambda: SortedKeyList(sk, key=lambda x: x[0]))
    t(who, "len", n, lambda: [len(items) for _ in range(n)])
    pairs = [[k, 1] for k in keys]
    c = t(who, "build any", n, lambda: SortedKeyList(pairs, key=lambda x: x[0]))
    t(who, "free", n, lambda: c.clear())


def sdict(who, keys, more, perm, n):  # keys (deadline, serial), the handle is the key
    d, h = SortedDict(), n // 2

    def ins():
        made = []
        for i, k in enumerate(keys):
            x = (k, i)
            d[x] = 1
            made.append(x)
        return made

    ps = t(who, "insert", n, ins)
    t(who, "get by handle", n, lambda: [d[ps[i]] for i in perm])

    def st():
        for i in perm:
            d[ps[i]] = 2

    t(who, "set by handle", n, st)
    t(who, "find by key", n, lambda: [next(d.irange((keys[i],))) for i in perm])
    t(who, "iterate keys", n, lambda: sum(k[0] for k in d))
    t(who, "iterate values", n, lambda: sum(v for v in d.values()))
    t(who, "iterate items", n, lambda: sum(v for _, v in d.items()))
    t(who, "list(items)", n, lambda: list(d.items()))
    t(who, "backwards", n, lambda: sum(v for v in reversed(d.values())))

    def rk():
        for i in perm:
            v = d.pop(ps[i])
            ps[i] = (more[i], i)
            d[ps[i]] = v

    t(who, "rekey", n, rk)
    t(who, "erase by handle", h, lambda: [d.pop(ps[i]) for i in perm[:h]])
    t(who, "pop first", h // 2, lambda: [d.popitem(0) for _ in range(h // 2)])
    sk = sorted((k, i) for i, k in enumerate(keys))
    t(who, "build sorted", n, lambda: SortedDict((k, 1) for k in sk))
    t(who, "len", n, lambda: [len(d) for _ in range(n)])


rounds = int(sys.argv[1]) if len(sys.argv) > 1 else 5
builds = [it.split("=") for it in sys.argv[2:]]
if builds:
    columns = [(name, load(name, folder), arena) for name, folder in builds]
else:
    from topscedar import SortedArena

    columns = [("arena", SortedArena, arena)]
for n in (1000, 10_000, 100_000):
    best.clear()
    r = random.Random(n)
    keys = [r.randrange(-(2**61), 2**61) for _ in range(n)]
    more = [r.randrange(-(2**61), 2**61) for _ in range(n)]
    perm = list(range(n))
    r.shuffle(perm)
    for _ in range(rounds * (20 if n == 1000 else 4 if n == 10_000 else 1)):
        for name, make, f in columns:
            f(name, make, keys, more, perm, n)
        keylist("KeyList", keys, more, perm, n)
        sdict("SortedDict", keys, more, perm, n)
    whos = [*[name for name, _, _ in columns], "KeyList", "SortedDict"]
    print(f"n = {n}\n{'':18}" + "".join(f"{w:>12}" for w in whos))
    for w in dict.fromkeys(k[0] for k in best):
        print(f"{w:18}" + "".join(f"{best[(w, x)]:12.0f}" if (w, x) in best else f"{'':>12}" for x in whos))
    sys.stdout.flush()
