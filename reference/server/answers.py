"""A client's message against a book: its orders, and the octets of the answer."""

from . import messages
from .book import BookRefusal
from .manner import Manner, handed_out
from .permit import ALL

ORDER_OF_KIND = {messages.SOLICIT: "request", messages.REQUEST: "request", messages.RENEW: "renew",
                 messages.REBIND: "renew", messages.RELEASE: "release"}
NO_BINDING, NO_PREFIX, NOTHING = ("no binding",), ("no prefix",), ("nothing",)
ANSWER_OF_REFUSAL = {"NoPrefix": NO_PREFIX, "NoBinding": NO_BINDING}
PLAIN = Manner()


def order_of(message, association, prefix):
    return (ORDER_OF_KIND[message.kind], message.client, association.identifier, prefix)


def orders_of(message):
    """One order per IA_PD, in their order."""
    return [order_of(message, association, association.hint) for association in message.associations]


def answer_to(book, message, order, reading):
    """What the book says to one order; None where the message gets no answer for it."""
    try:
        if message.kind == messages.SOLICIT:
            return ("given", *book.offer(reading, order))
        reply = book.apply(reading, order)
    except BookRefusal as refusal:
        return ANSWER_OF_REFUSAL.get(refusal.name)
    return ("given", *reply[1:]) if reply[0] == "granted" else reply


def orders_by_association(message, manner=PLAIN):
    """The orders of each IA_PD: one, or one for each prefix of a RELEASE where each prefix is an order."""
    if message.kind == messages.RELEASE and manner.releases_each:
        return [[order_of(message, association, prefix) for prefix in association.prefixes or [None]]
                for association in message.associations]
    return [[order] for order in orders_of(message)]


def answer_to_orders(book, message, place, orders, permit, reading):
    """What is told of the IA_PD of a place: what the first of its orders is told that finds a binding, or that may not
    be done."""
    told = NO_BINDING
    for number, order in enumerate(orders):
        answer = permit.of(place, number) or answer_to(book, message, order, reading)
        if told == NO_BINDING:
            told = answer
    return told


def refused_addresses(manner, message):
    """The IA_NAs that are told that there is no address."""
    return message.addresses if manner.refuses_addresses and message.kind != messages.RELEASE else []


def octets_of(own, message, answers, manner=PLAIN):
    """The octets of an answer that has these parts, None where there is none: a RENEW or REBIND that nothing is told
    of, or a message without IA_PDs. A RELEASE is told Success at least."""
    answers = [NOTHING if is_left(manner, message, answer) else answer for answer in answers]
    is_told = any(answer != NOTHING for answer in answers) or (bool(answers) and message.kind == messages.RELEASE)
    if message.kind != messages.INFORMATION_REQUEST and not is_told:
        return None
    return messages.encode(message, own, answers, handed_out(manner, message), refused_addresses(manner, message))


def is_left(manner, message, answer):
    """Whether an IA_PD is left to the partner."""
    return message.kind == messages.REBIND and manner.is_silent and answer == NO_BINDING


def serve(book, own, message, reading, manner=PLAIN, permit=ALL):
    """The octets of the answer to a message that was read, None where there is none."""
    answers = []
    for place, orders in enumerate(orders_by_association(message, manner)):
        answer = answer_to_orders(book, message, place, orders, permit, reading)
        if answer is None:
            return None
        answers.append(answer)
    return octets_of(own, message, answers, manner)


def serve_datagram(book, own, octets, reading, manner=PLAIN):
    """The answer to a datagram, and how it was read: a refusal's name, or the message."""
    try:
        message = messages.decode(octets, own, manner.informs)
    except messages.Refused as refusal:
        return None, refusal.name
    return serve(book, own, message, reading, manner), message
