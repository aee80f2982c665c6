"""What a type checker has to accept: `mypy --strict`. bindings/check runs it if mypy is installed."""
from datetime import datetime
from typing import List, Optional, Tuple

from topscedar import SortedArena, Token, by_time


def expire(sessions: SortedArena[int, str], now: int) -> List[str]:
    return [user for _, user in sessions.pop_until(now)]


def move_first(sessions: SortedArena[int, str], deadline: int) -> Optional[Token]:
    entry = sessions.first()
    if entry is None:
        return None
    token, _, user = entry
    sessions.rekey(token, deadline)
    sessions.set_value(token, user.upper())
    return token


def latest(events: SortedArena[datetime, bytes]) -> Optional[Tuple[int, str]]:
    for moment, data in reversed(events.items()):
        return moment.year, data.decode()
    return None


users: SortedArena[int, str] = SortedArena({30: "ann"})
times: SortedArena[datetime, bytes] = SortedArena(key=by_time)
name: Optional[str] = users.get(30)
other: str = users.pop(30, "nobody")
copied: SortedArena[int, str] = users.copy()
