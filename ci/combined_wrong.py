"""Wrong bodies for ci/combined: mistakes that its rows have to tell from the definitions. Each puts
others in place of functions of the plain reader."""

import combined_reader as reader
from combined_reader import IDLE, LETTERS, LOST, Shown


class Family(reader.Family):
    """A family as it should be; wrong ones change a part."""

    youngest, most = reader.SIXTY_SIX_HOURS, reader.REMEMBERED

    def takes(self, copy, begun):
        is_young = copy.moment - self.moment < self.youngest and begun - self.number < self.most
        return is_young and reader.is_of_one_text(self.positions[: self.end], copy.positions)


class FamilyForEver(Family):
    """A family of more than 66 hours is joined."""

    youngest = reader.NO_RELEASE


class FamilyOf199(Family):
    """199 families are held."""

    most = reader.REMEMBERED - 1


class FamilyCut(Family):
    """The family keeps the joined positions up to their end alone."""

    def join(self, copy):
        super().join(copy)
        self.positions = self.positions[: self.end]


def newer_joined_at(one, other):
    """At an index where two differ the newer is taken."""
    return other if one > 0 and other > 0 else JOINED_AT(one, other)


def idle_joined_at(one, other):
    """A position that one has lost and the other has idle is idle."""
    return IDLE if IDLE in (one, other) and max(one, other) <= IDLE else JOINED_AT(one, other)


def shifted_joined(one, other):
    """Positions are joined one index further where one copy begins with a lost one."""
    if one[:1] != other[:1] and LOST in one[:1] + other[:1]:
        one, other = ([LOST] + one, other) if other[:1] == [LOST] else (one, [LOST] + other)
    return JOINED(one, other)


def tail_kept(lock):
    """What stands behind the last two sure positions of a lost lock is kept."""
    heard = HEARD_IN(lock)
    return heard._replace(sure=len(heard.positions))


def together_printed(copy, member):
    """The joined text is printed where the copy itself is better."""
    together = Shown(*reader.read_positions(member.positions)[:2])
    return together if member.has_joined else COMBINED(copy, member)


def read_from_letters(positions):
    """Joined positions are read from letters."""
    text, how, count = reader.end_of(reader.reading(positions, LETTERS)[0])
    end = len(positions) if count is None else reader.reading(positions, LETTERS)[1][count - 1] + 1
    return text, how, end


def as_good(one, other):
    """A copy with as many errors is printed again."""
    return not BETTER(other, one)


def printed_wrongly(prints_better=True, enters_better=True, enters_long=False):
    """*Printed and entered, combined*, with a part of it missing."""

    def printed(copies, members, shown):
        entries, last_printed, answers = [], {}, []
        for copy, member, its in zip(copies, members, shown):
            before = last_printed.get(member.family)
            is_urgent = reader.is_urgent(copy.identity)
            is_new = is_urgent or not reader.is_live(entries, copy.identity, copy.moment)
            is_better = prints_better and before is not None and reader.is_better(its, before)
            is_printed = copy.is_selected and (is_new or is_better)
            if is_printed and member.family:
                last_printed[member.family] = its
            is_held = not is_urgent if enters_long else reader.may_be_known(copy)
            if is_printed and reader.is_good(*its) and is_held and (is_new or enters_better):
                entries.append((copy.identity, copy.moment))
            answers.append(is_printed)
        return answers

    return printed


JOINED_AT, JOINED, HEARD_IN = reader.joined_at, reader.joined, reader.heard_in
COMBINED, BETTER, MAY_BE_KNOWN = reader.combined, reader.is_better, reader.may_be_known

WRONG_BODIES = {
    "combines-what-differs": {"joined_at": newer_joined_at},
    "combines-another-text": {"is_of_one_text": lambda one, other: True},
    "combines-for-ever": {"Family": FamilyForEver},
    "combines-refused": {"has_family": MAY_BE_KNOWN},
    "combines-urgent": {"has_family": lambda copy: copy.is_selected and len(copy.positions) <= reader.MOST_POSITIONS},
    "keeps-the-tail": {"heard_in": tail_kept},
    "idle-hides-what-is-lost": {"joined_at": idle_joined_at},
    "enters-what-is-too-long": {"printed_combined": printed_wrongly(enters_long=True)},
    "cut-at-a-false-end": {"Family": FamilyCut},
    "worse-than-its-copy": {"combined": together_printed},
    "reads-from-letters": {"read_positions": read_from_letters},
    "prints-again-what-is-as-good": {"is_better": as_good},
    "never-better": {"printed_combined": printed_wrongly(prints_better=False)},
    "better-isnt-entered": {"printed_combined": printed_wrongly(enters_better=False)},
    "shifts-by-one": {"joined": shifted_joined},
    "loses-a-family-at-199": {"Family": FamilyOf199},
}


def told_by(name, files, logs):
    """How many of these files have another log, with several sendings, where this body is wrong;
    `logs` are the right ones."""
    rights = {it: getattr(reader, it) for it in WRONG_BODIES[name]}
    for it, wrong in WRONG_BODIES[name].items():
        setattr(reader, it, wrong)
    try:
        return sum(reader.run_of(it).combined != right for it, right in zip(files, logs))
    finally:
        for it, right in rights.items():
            setattr(reader, it, right)
