"""Sessions by their deadlines: open, touch, expire and list."""

from topscedar import SortedArena


def show(sessions):
    for deadline, user in sessions.items():
        print(f"  user {user} until {deadline}")


def main():
    sessions = SortedArena()
    tokens = [sessions.insert(100 + 10 * user, user) for user in range(5)]
    print("opened:")
    show(sessions)

    before = sessions.key(tokens[0])
    sessions.rekey(tokens[0], 145)
    print(f"touched: user 0 until 145, was {before}")

    print("expired at 120:")
    for _, user in sessions.pop_until(120):
        print(f"  user {user}")

    print("user 1 is", "there" if sessions.is_live(tokens[1]) else "gone")
    print("left:")
    show(sessions)


if __name__ == "__main__":
    main()
