"""Lines of advice on a run's plan, each where a fact supports it. The bounds are ours."""
from .regions import Coverage

SMALL_PIECE = 1 << 12       # bytes; smaller pieces in a row are worth a line
MANY_PIECES = 16            # pieces of a rank in one call
SMALL_CALL = 1 << 16        # bytes of all ranks in one collective call
FEW_CALLS = 4               # calls in a row that are worth a line
UNEVEN = 1.5                # the most of an aggregator's bytes by the mean


def size_word(count):
    for unit, name in ((1 << 30, "GiB"), (1 << 20, "MiB"), (1 << 10, "KiB")):
        if count >= unit:
            return "%.4g %s" % (count / unit, name)
    return "%d bytes" % count


def names_of(steps):
    return ", ".join(dict.fromkeys(name for step in steps for name in step.variables))


def marks_of(steps):
    marks = [step.mark for step in steps]
    return marks[0] if len(marks) == 1 else "%s to %s (%d steps)" % (marks[0], marks[-1], len(marks))


def small_pieces(steps):
    found = [s for s in steps if s.collective and s.pieces.most >= MANY_PIECES and s.bytes.total < SMALL_PIECE * s.pieces.total]
    if found:
        worst = max(found, key=lambda s: s.pieces.most)
        yield "%s of %s: up to %d pieces a rank of %s each. Where a rank's part of the array lies in longer rows there are fewer." % (
            marks_of(found), names_of(found), worst.pieces.most, size_word(worst.bytes.total // worst.pieces.total))


def read_first(steps):
    puts = [s for s in steps if s.direction == "put"]
    windows, read = sum(s.windows for s in puts), sum(s.holes for s in puts)
    if read * 2 >= windows > 0:
        holed = [s for s in puts if s.holes]
        yield "%d of %d windows of puts have holes and are read before they are written (%s, %s). Puts without gaps between them are only written." % (
            read, windows, marks_of(holed), names_of(holed))


def uneven(steps):
    served = {}
    for step in steps:
        for aggregator, count in step.by_aggregator.items() if step.collective else ():
            served[aggregator] = served.get(aggregator, 0) + count
    if len(served) > 1:
        most, mean = max(served, key=served.get), sum(served.values()) / len(served)
        if served[most] >= UNEVEN * mean:
            yield "aggregator %d has %.1f times the mean of the aggregators' bytes (%s of %s). Other domains come with cb_nodes and striping_unit." % (
                most, served[most] / mean, size_word(served[most]), size_word(sum(served.values())))


def many_small_calls(steps):
    small = [s for s in steps if s.collective and s.bytes.total < SMALL_CALL and s.direction == "put"]
    if len(small) >= FEW_CALLS:
        yield "%d collective puts (%s to %s, %s) move less than %s each. Posted by iput and waited for by one wait_all they are one step." % (
            len(small), small[0].mark, small[-1].mark, names_of(small), size_word(SMALL_CALL))


def independent(steps):
    alone = [s for s in steps if not s.collective and s.bytes.total < SMALL_CALL]
    if len(alone) >= FEW_CALLS:
        yield "%d independent calls (%s) move less than %s each, and make %d device calls. Collective calls would join them." % (
            len(alone), names_of(alone), size_word(SMALL_CALL), sum(s.reads.count + s.writes.count for s in alone))


def unaligned(sums, unit):
    calls, odd = sums["writes"]["calls"] + sums["reads"]["calls"], sums["writes"]["unaligned"] + sums["reads"]["unaligned"]
    if unit > 1 and odd * 2 >= calls > 0:
        yield "%d of %d device calls begin off the multiples of striping_unit (%d). nc_var_align_size %d lets variables begin there." % (
            odd, calls, unit, unit)


def never_written(merged):
    """Variables of a new dataset of which an eighth or more is never put."""
    definitions, lines = merged.definitions, [line for part in merged.parts for rank in part.ranks for c in rank.calls for line in c.put_lines()]
    for number, var in enumerate(definitions.vars):
        shape = definitions.shape(var)
        if merged.opening.how != "create" or 0 in shape:
            continue
        coverage = Coverage(shape, 0)
        for line in lines:
            if line.var == number:
                coverage.add(line)
        free = coverage.free()
        if free and free * 8 >= coverage.count:
            yield "%d of %d elements of %s are never written." % (free, coverage.count, definitions.variable_word(number))


def advice(merged, steps, sums, unit):
    """The lines for the plan of an opening; whole is where all its calls were planned."""
    told = [small_pieces(steps), read_first(steps), uneven(steps), many_small_calls(steps), independent(steps)]
    told += [unaligned(own, unit) for own in sums]
    return [line for lines in told for line in lines] + (list(never_written(merged)) if merged.whole else [])
