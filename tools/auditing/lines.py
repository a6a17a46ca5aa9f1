"""The words of a verdict that names a line of the history, or of the order of a connection's requests: an update that its frame cannot have
asked for, that was done twice, or that came after one of a later frame.

Which frame an update is of is read off the replies, and otherwise found by what it did (`causes`). So if a reply is missing in the record,
the frame that is named is the wrong one. The words say so, and which frames have no reply.
"""
from expected import state_after
from keys import did
from packets import CLOSE, UPDATES
from rows import Rows
from steps import connect_words, misstep, misstep_words, unanswered
from updates import Updates, cut, event_text, seconds

MOST_FRAMES = 6


def line_words(verdict, what, at):
    text, revision = verdict.lines[at]
    updates, number = Updates(verdict.it), getattr(revision, "number", None)
    if number not in updates.by_number or not hasattr(revision, "kind"):
        return f"line {at + 1} of the transcript is not what the service does there: {cut(text)}"
    cause = updates.cause(number)
    if not cause:
        return f"update {number} is not what the service does there: {updates.line(number)}"
    it, rows = verdict.it.streams.connections[cause.number], Rows(verdict, updates, cause.number)
    wrong, of_connect = misstep(it), connect_words(it, updates)
    if of_connect or wrong and wrong.index <= cause.index:
        verdict.miscounted.add(cause.number)
        headline, got, wanted, more = of_connect or misstep_words(it, wrong, updates)
        first = next(at for at in rows.own if verdict.lines[at][1].what == "send")
        place = verdict.lines[first] if of_connect else verdict.it.lines[verdict.it.places[wrong.place]]
        at, involved = next(at for at in rows.own if verdict.lines[at] is place), set()
        more.append(f"the judge stops at update {number}; that it is of frame {cause.index} comes of this fault")
    elif what == "order":
        headline, got, wanted, more, involved = of_order(verdict, updates, number, cause)
    else:
        headline, got, wanted, more, involved = of_history(verdict, updates, number, cause)
    found = [f"connection {cause.number}: {headline}", rows.who(verdict.it.streams.items[it.places[cause.index]].time)]
    found += [f"  got       {got}", f"  expected  {wanted}", *(f"  {each}" for each in more)]
    if involved:
        mine = next(at for at in rows.own if rows.index[at] == ("frame", cause.index))
        after = next((at for at in rows.own if rows.index[at] == ("reply", cause.index)), mine)
        return "\n".join(found + rows.around(mine, after + 1, involved, number))
    return "\n".join(found + rows.around(at, at + 1, involved))


def of_order(verdict, updates, number, cause):
    same = [it for it, its in verdict.it.causes.found.items() if its == cause and it < number]
    asked = f"frame {cause.index} ({updates.frame(*cause)})"
    more = ["no unanswered frame is left that asks for just this"]
    if same:
        verdict.told.update(it for it in verdict.it.causes.notes if it.startswith(f"update {number} does again"))
        return (f"update {number} does again what {asked} asked for: update {same[-1]} did it", f"updates {same[-1]} and {number}",
                f"update {same[-1]} alone", more, {same[-1], number})
    later = max((it for it, its in verdict.it.causes.found.items() if its.number == cause.number and its.index > cause.index and it < number),
                default=None)
    after = f"update {later} of its frame {updates.cause(later).index}" if later else "one of a later frame"
    involved = {it for it in (later, number) if it}
    return f"update {number} does what {asked} asked for, after {after}", f"{after} first", f"update {number} before it", [], involved


def is_asked(verdict, revision, cause):
    """Whether an update does what a frame asks for, as far as that can be seen here."""
    it, causes = verdict.it.streams.connections[cause.number], verdict.it.causes
    session = next((session for session, made in causes.sessions.items() if cause.number in made.values()), it.welcome[0] if it.welcome else 0)
    request = it.requests[cause.index]
    if request is None or request.kind not in UPDATES:
        return revision.kind() == ("closed" if request and request.kind == CLOSE else None)
    return revision.kind() == "asked" and did(revision, state_after(verdict.it, revision.number - 1).effect(session, request.parts))


def of_history(verdict, updates, number, cause):
    it, claims = verdict.it.streams.connections[cause.number], verdict.it.causes.claims.get(number, [])
    asked, told = f"frame {cause.index} ({updates.frame(*cause)})", [event_text(*each) for each in updates.by_number[number].triggers()]
    kind, done = updates.by_number[number].kind(), seconds(updates.done_by(number)[0])
    got = f"update {number} ({kind}) tells {', '.join(told) or 'nothing'}, done by {done}"
    left = [f"{index} ({updates.frame(it.number, index)})" for index in unanswered(it, len(updates.it.streams.items))[:MOST_FRAMES]]
    more = [f"frames of connection {it.number} without a reply: {', '.join(left) or 'none'}; the record may lack a packet"]
    others = [f"frame {index} of connection {who} ({updates.frame(who, index)})" for who, index in claims if (who, index) != tuple(cause)]
    if others:
        more.insert(0, f"the reply to {' and that to '.join(others)} has the same zxid")
    if is_asked(verdict, updates.by_number[number], cause):
        return f"update {number} does what {asked} asks for, and the service could not do that there", got, "no such update", more, {number}
    if tuple(cause) not in claims:
        wanted = "what that frame asks for, or another frame"
        return f"update {number} cannot have been done by {asked}, to which it is put", got, wanted, more, {number}
    does = next((each for each, its in verdict.it.causes.found.items() if its == cause and each != number), None)
    if does:
        verdict.miscounted.add(cause.number)
    wanted = f"zxid {does} in the reply: update {does} does what that frame asks for" if does else "what that frame asks for"
    return f"update {number} is not what {asked} asks for, and the reply to that has zxid {number}", got, wanted, more, {number, does or number}
