"""Why a request is answered so, in a line of words, from the numbers of tools/model.py; and times in words.

A log has IPv4 addresses, no withdrawals, no lower bounds and no profile; tools/registrar has all of them.
"""

import re
import textwrap
from copy import copy
from fractions import Fraction

import model
from model import LIFETIME, Ad, Ticket


def wrapped(text):
    """Lines that a projector shows whole, with no number apart from its unit."""
    kept = re.sub(r"(\d) (ms|s|min|h)\b", "\\1\xa0\\2", text or "")
    return [line.replace("\xa0", " ") for line in textwrap.wrap(kept, 112)]


def span(ms):
    """A time in words: 1 ms, 3.657 s, 14 min 49.777 s, 1 h 2 min."""
    if ms < 1000:
        return f"{ms} ms"
    hours, rest = divmod(ms, 3_600_000)
    minutes, rest = divmod(rest, 60_000)
    parts = [f"{hours:,} h"] * bool(hours) + [f"{minutes} min"] * bool(minutes) + [f"{rest / 1000:g} s"] * bool(rest)
    return " ".join(parts)


def factor(counts):
    """The crowd's factor, document 01's f, to three places, or to a whole number from 1,000 on."""
    exact = Fraction(counts.capacity, counts.capacity - counts.occupied) ** model.FACTORS
    return f"{round(exact):,}" if exact >= 1000 else f"{float(exact):.3f}".rstrip("0").rstrip(".")


def crowd(counts):
    return "full" if counts.occupied == counts.capacity else f"crowd's factor {factor(counts)}"


def of_wait(counts, stayed, bound=0):
    """How a wait came about, and what is left of it. bound: what is left of the lower bound of this service and address."""
    taken = f"{counts.occupied} of {counts.capacity} places {'is' if counts.occupied == 1 else 'are'} taken, {counts.same} by this service"
    counted = f"{taken}; address likeness {counts.similar} of {counts.levels}; {crowd(counts)}"
    wait = counts.wait()
    left = max(wait, bound) - stayed
    held = f", lower bound {span(bound)}, of which the larger counts;" if bound else ","
    rest = f", left {span(left)}" if wait < model.NEVER else ""
    ends = rest if left > 0 else ", which is enough"
    cut = f"; a ticket tells {span(LIFETIME)} at most" if left > LIFETIME else ""
    return f"{counted}: wait {span(wait) if wait < model.NEVER else 'past every clock'}{held} stayed {span(stayed)}{ends}{cut}"


def counts_of(registrar, answer, clock, ad):
    """What was held against the ad of a WAIT or an OK, told from the registrar as it was left: the expired have gone, and the newcomer of OK stands last."""
    left = copy(registrar)
    left.entries = registrar.entries[:-1] if answer.word == "OK" else registrar.entries
    return left.counts(clock, ad)


def of_listing(registrar, clock, service):
    live = registrar.live(clock)
    same = [entry for entry in live if entry.ad.service == service]
    withdrawn, shown = sum(entry.withdrawn for entry in same), len(registrar.wanted(clock, service))
    older = len(same) - withdrawn - shown
    left_out = [f"{withdrawn} withdrawn"] * bool(withdrawn) + [f"{older} with a stamp older than thirty days"] * bool(older)
    but = f", but {' and '.join(left_out)}" if left_out else ""
    most = f", of which the {model.LISTED} oldest are listed" if shown > model.LISTED else ""
    return f"{len(registrar.entries)} held, {len(live)} of them live, {len(same)} of these of this service{but}{most}"


def of_clock(registrar, clock):
    """Refusal 3: which of its two conditions, and by how much."""
    if clock > model.LAST_CLOCK:
        return f"{span(clock - model.LAST_CLOCK)} past the last clock there is"
    return f"{span(registrar.clock - clock)} too early: an earlier request came at {span(registrar.clock)}"


def of_window(registrar, clock, ticket):
    """Refusal 11: which of its two conditions, and by how much."""
    due = ticket.issued + ticket.wait
    if clock < due:
        return f"{span(due - clock)} too early: the ticket is due at {span(due)}"
    return f"{span(clock - due - registrar.window)} too late: the ticket was good from {span(due)} to {span(due + registrar.window)}"


def of_held(registrar, clock, ad):
    held = next(e for e in registrar.live(clock) if (e.ad.service, e.ad.peer) == (ad.service, ad.peer))
    stays = ", is withdrawn, and keeps its place" if held.withdrawn else " and stays"
    return f"it came in at {span(held.accepted)}{stays} until {span(held.accepted + LIFETIME)}"


def of_times(clock, ticket):
    """Refusal 9: which of its conditions."""
    if ticket.issued > clock:
        return f"it was issued at {span(ticket.issued)}, {span(ticket.issued - clock)} from now"
    if ticket.first > ticket.issued:
        return f"it was issued at {span(ticket.issued)}, {span(ticket.first - ticket.issued)} before its first request"
    return f"its wait is {span(ticket.wait)}, which is not from 1 ms to {span(LIFETIME)}"


def of_stamp(clock, stamp):
    """Refusal 20: which of its two conditions, and by how much."""
    if stamp > clock:
        return f"its stamp is {span(stamp)}, {span(stamp - clock)} after now"
    return f"its stamp is {span(stamp)}, {span(clock - stamp)} ago: {span(clock - stamp - model.STAMP_AGE)} more than thirty days"


def of_places(bounds):
    """Refusal 19, of bounds that are all in force."""
    return f"{len(bounds)} of {len(bounds)} places for lower bounds are taken; the first is over at {span(min(bound.until for bound in bounds))}"


def of_withdrawal(registrar, answer, clock, service, peer):
    """Refusal 17, or what a withdrawal leaves."""
    held = [entry for entry in registrar.live(clock) if (entry.ad.service, entry.ad.peer) == (service, peer)]
    if not held:
        return "none is held, or it has expired"
    stays = f"it keeps its place until {span(held[0].accepted + LIFETIME)}"
    if answer.word == "NO":
        return f"it is withdrawn already; {stays}"
    return f"{stays}, counts in everybody's wait till then, and its peer cannot be admitted for this service"


def of_newest(registrar, clock, service):
    """What one of two registrars has of the service."""
    listed = registrar.wanted(clock, service)
    return f"{len(listed)} of this service to show, the newest admitted at {span(listed[-1].accepted)}" if listed else "none of this service to show"


def why(registrar, answer, clock, service=None, ad=None, ticket=b"", bound=0):
    """A line, or None where the answer says it all. The registrar is as the answer left it, which a refusal and a listing do not change."""
    if answer.word == "ADS":
        return of_listing(registrar, clock, service)
    if answer.word in ("OK", "WAIT"):
        first = Ticket.of(ticket[1:]).first if ticket else clock
        return of_wait(counts_of(registrar, answer, clock, Ad.of(ad[1:], registrar.family)), clock - first, bound)
    if answer.number == 3:
        return of_clock(registrar, clock)
    if answer.number == 6:
        return of_held(registrar, clock, Ad.of(ad[1:], registrar.family))
    if answer.number == 20:
        return of_stamp(clock, Ad.of(ad[1:], registrar.family).stamp)
    if answer.number in (9, 11):
        brought = Ticket.of(ticket[1:])
        return of_times(clock, brought) if answer.number == 9 else of_window(registrar, clock, brought)
    return None
