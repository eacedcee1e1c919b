"""What `serve` does as it begins, what it writes while it hasn't joined its partner, and what shows it that its journal
is an old copy. `run` does none of it."""

# How many seconds a server whose book isn't calm serves nobody, where its partner doesn't come and wait.
HOLD_OFF = 30
# How many seconds at least a partner that has joined such a server has to say that it waits.
TO_ASK = 10
# What `status` says where it hasn't said so by then.
DOESNT_WAIT = "older than what its partner took (its partner serves, and doesn't wait for it)"
# Lines of which each shows a lone server that its directory wasn't begun in vain.
TRACES = ("grant", "carry", "unit", "take")
NEVER_ANSWERED = "this directory was begun for a pair and never answered: begin in an empty one"
NOT_ANSWERED = ("this directory has leases and waits for its partner's answer: give it link and link_key again and "
                "start the partner")
NO_CLOSE = ("refused: no volume may follow while the partner is taken for down: the next start would be refused "
            "(stop without --close goes on)")
NO_CLOSE_MARKED = ("refused: no volume may follow before the partner has acknowledged the units that were seized from "
                   "it: the next start would be refused (stop without --close goes on)")
WHOLE = "whole"


def is_calm(book):
    """Whether the partner isn't taken for down, and no unit is marked."""
    return book.down is None and not any(unit.mark for unit in book.table.ordered)


def shows_partner(book):
    """Whether a line shows that the server has had a partner."""
    return book.serial > 0 or any(line.event[0] in ("send", "take") for line in book.lines)


def first_events(book, has_link):
    """What a start writes behind the opening of a first volume, or behind what it goes on with: who has a partner, or
    had one, and a calm book begins by waiting."""
    return [("restart", book.restart + 1)] if is_calm(book) and (has_link or shows_partner(book)) else []


def held_off_until(begun, joined=None):
    """The moment at which a server whose book isn't calm goes on alone or, where its partner has joined and hasn't said
    by then that it waits, finds its journal an old copy: by the moments at which it began, and at which the two joined.
    What else the partner says shows nothing, for it may be an old message that is sent again."""
    return begun + HOLD_OFF if joined is None else max(begun + HOLD_OFF, joined + TO_ASK)


def quiet_event(book, is_joined):
    """What a server writes that wrote nothing for `heartbeat` seconds, None where it goes on writing nothing: no serial
    is used until the two have joined, and any word of a state would end that the partner is down."""
    if is_joined:
        return ("send", book.term, book.serial + 1, book.contact())
    return ("state", "interrupted") if book.down is None else None


def lacks(book, told):
    """Whether a partner that took messages up to a serial shows that the journal lacks some of them."""
    return told > book.serial


def shows_more(book, body):
    """Whether a message that is to be taken, of any term, has seen a change of a unit that the book doesn't have."""
    if body[0] == "contact":
        return False
    unit = book.table.get(body[2])
    seen = body[4] if body[0] == "update" else body[3]
    return unit is not None and seen > unit.mine


def older(book, told):
    """What `status` says of a journal that lacks messages."""
    return f"older than what its partner took (it took message {told}, this journal sent {book.serial})"


def lone_refusal(book):
    """Why a server without partner refuses to go on with the last volume's book, None where it doesn't."""
    if not book.waiting:
        return None
    is_answered = any(line.event[0] in TRACES for line in book.lines)
    return NOT_ANSWERED if is_answered else NEVER_ANSWERED
