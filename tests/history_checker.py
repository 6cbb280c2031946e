"""Decides whether ONE order of commands explains what the clients of a server saw, and what a kill left.

A history covers one life of a server, from an opening to a kill: the value of each cell at the opening, the commands of all clients with the
times at which each was sent and answered, on one clock, and the value of each cell at the next opening. A cell is a part of the image that is
only written whole. Each WRITE puts a value of its own into all of its cells, so a value names its write. Zeroes, the value 0, may come from any
number of commands.

docs/ASSURANCE.md says what has to hold. There is one order of the writes (WRITE, TRIM, WRITE_ZEROES) and the READs. A command that was answered
before another one was sent comes before it. A READ shows, in all of its cells, the last values that were written before it. The next opening
shows the image after a prefix of the order, and that prefix has each confirmed write. In `writeback` a write is confirmed if it was answered
before a FLUSH was sent that was answered too, or if it has FUA and was answered; in `writethrough` if it was answered; in `ordered` never. A write
without an answer may come anywhere after the commands that were answered before it was sent, or never.

`judge` returns one of three verdicts:
- FITS, with an order. A search finds the order, and `is_order` then checks it by a walk that knows nothing of the search.
- WRONG, with a reason: a circle of commands each of which has to come before the next, or a value that can't be there.
- UNDECIDED: neither was found within a fixed number of tries. The problem is NP-hard, because values that nobody read may be written in any
  order; the histories of a server have been decided within a few tries.

WRONG is never the verdict on a history that fits, because each step is forced. These edges are known: from a command to each that was sent after
its answer; from a write to a READ that shows it; from a confirmed write to the next opening. If a READ shows write W in a cell, every other
write of that cell comes before W or after the READ: so one that comes before the READ comes before W, and one that comes after W comes after the
READ. For zeroes a READ has several writes to choose from. Those are dropped that come after the READ, or before another write of the cell that
comes before it; what holds for all that are left holds. If the search gets stuck it names a choice that it made, one side of an either-or. The
judge tries that side; if it leads to a circle the other side holds.
"""
import bisect

READ, WRITE, FLUSH = "READ", "WRITE", "FLUSH"
FITS, WRONG, UNDECIDED = "fits", "wrong", "undecided"
NEVER = float("inf")
TRIES = 60


class Command:
    """A command of a client: the cells that it reads or writes, and the value that a READ found or a write puts in each. A command without an
    answer has NEVER as the time of it."""

    __slots__ = ("client", "kind", "sent", "answered", "cells", "values", "has_fua", "name")

    def __init__(self, client, kind, sent, answered=NEVER, cells=(), values=(), has_fua=False, name=None):
        self.client, self.kind, self.sent, self.answered = client, kind, sent, answered
        self.cells, self.values, self.has_fua, self.name = cells, values, has_fua, name or kind

    def __str__(self):
        if self.kind == FLUSH:
            where = ""
        elif len(self.cells):
            where = f" of cells {self.cells[0]} to {self.cells[-1]}"
        else:
            where = " of no cell"
        value = f" value {self.values[0]}" if self.kind == WRITE and len(self.values) else ""
        end = "no answer" if self.answered == NEVER else f"answered {self.answered}"
        return f"{self.name}{value}{where} by client {self.client} (sent {self.sent}, {end})"


def confirmed(mode, commands):
    """The writes that the next opening has to show."""
    flushes = [it.sent for it in commands if it.kind == FLUSH and it.answered < NEVER]
    last = max(flushes, default=-NEVER)
    if mode == "ordered":
        return []
    writes = [it for it in commands if it.kind == WRITE and it.answered < NEVER]
    return [it for it in writes if mode == "writethrough" or it.has_fua or it.answered < last]


def is_order(opening, commands, end, must, order):
    """Whether an order explains a history, by a walk over it. In the order None stands for the next opening; writes without an answer may be
    missing."""
    state, latest, seen = dict(opening), -NEVER, set()
    for command in order:
        if command is None:
            if any(state[cell] != value for cell, value in end.items()) or any(id(it) not in seen for it in must):
                return False
            continue
        if command.answered < latest or id(command) in seen:
            return False
        latest = max(latest, command.sent)
        seen.add(id(command))
        if command.kind == WRITE:
            state.update(zip(command.cells, command.values))
        elif any(state[cell] != value for cell, value in zip(command.cells, command.values)):
            return False
    needed = [it for it in commands if it.kind != FLUSH and it.answered < NEVER]
    return all(id(it) in seen for it in needed) and (end is None or None in order)


class Wrong(Exception):
    """The history fits no order; the text says why."""


def bits(number):
    """The numbers in a set, which is kept as the bits of a number."""
    while number:
        low = number & -number
        yield low.bit_length() - 1
        number ^= low


class Judge:
    """What is known of the order of one history.

    Commands go by numbers. 0 is the opening, as a write of all cells; the last number is the next opening, as a READ of all cells. `before` and
    `after` hold for each command the set of those that have to come before it and after it. Edges by time aren't kept for each pair: the
    answers, sorted by time, form a chain of further nodes. A command leads to the node of its own answer, and the node of the last answer
    before a command was sent leads to that command.
    """

    def __init__(self, mode, opening, commands, end):
        shown = {value for it in commands if it.kind == READ for value in it.values} | set((end or {}).values())
        # (A write without an answer that nobody saw may as well have never happened.)
        self.commands = [None] + [
            it for it in commands
            if it.kind == READ and it.answered < NEVER or it.kind == WRITE and len(it.cells) and (it.answered < NEVER or it.values[0] == 0 or it.values[0] in shown)
        ]
        self.opening, self.end, self.must, self.all = opening, end, confirmed(mode, commands), commands
        self.count = len(self.commands) + (end is not None)
        self.last = self.count - 1 if end is not None else None
        places = {id(it): place for place, it in enumerate(self.commands)}
        # For each command those that lead to it, other than by time, with the reason.
        self.reasons = [{} for _ in range(self.count)]
        self.chain = sorted((it.answered, place) for place, it in enumerate(self.commands) if place and it.answered < NEVER)
        moments = [moment for moment, _ in self.chain]
        self.entry = [0] * self.count
        for place in range(1, len(self.commands)):
            self.entry[place] = bisect.bisect_left(moments, self.commands[place].sent)
        for it in self.must:
            if len(it.cells):
                self.reasons[self.last][places[id(it)]] = "it is confirmed"
        # The commands of which more is known than in the last round, and the cells that no round has looked at yet.
        self.before = self.after = None
        self.news, self.unseen = 0, set()
        self.gather()

    def cells_of(self, place):
        """The cells of a READ with their values."""
        return self.end.items() if place == self.last else zip(self.commands[place].cells, self.commands[place].values)

    def gather(self):
        """Finds the writes of each cell, and the write that each READ shows there."""
        self.writers = dict.fromkeys(self.opening, 1)
        self.zeroing = zeroing = {cell: int(value == 0) for cell, value in self.opening.items()}
        self.of_value = of_value = {}
        for place in range(1, len(self.commands)):
            command = self.commands[place]
            if command.kind == WRITE:
                value = command.values[0]
                if value:
                    of_value[value] = place
                for cell in command.cells:
                    self.writers[cell] |= 1 << place
                    if not value:
                        zeroing[cell] |= 1 << place
        # Of the cells in which a READ shows the same write, and which have the same writes, one is enough.
        self.shows, self.zeroes = {}, {}
        self.readers = [place for place in range(1, self.count) if place == self.last or self.commands[place].kind == READ]
        for place in self.readers:
            for cell, value in self.cells_of(place):
                writers = self.writers[cell]
                if value == 0:
                    # (the cell, the writes of zeroes that the READ may show, and whether only one is left)
                    self.zeroes.setdefault((place, writers, zeroing[cell]), [cell, zeroing[cell], False])
                    continue
                source = 0 if self.opening[cell] == value else of_value.get(value)
                if source is None or not writers >> source & 1:
                    raise Wrong(f"{self.name(place)} shows the value {value} in cell {cell}: no write since the opening put it there, and the opening has {self.opening[cell]}")
                self.show(place, source, writers, cell)

    def show(self, place, source, writers, cell):
        if (place, source, writers) not in self.shows:
            self.shows[place, source, writers] = cell
            self.unseen.add((place, source, writers))
            self.lead(source, place, f"that shows its value in cell {cell}")

    def name(self, place):
        return "the image at the opening" if place == 0 else "the image at the next opening" if place == self.last else str(self.commands[place])

    def lead(self, first, then, reason):
        self.reasons[then].setdefault(first, reason)

    def close(self):
        """Finds all that come before and after each command; a circle is Wrong."""
        count, chain = self.count, self.chain
        # The nodes are the commands, then the answers by time.
        node_count = count + len(chain)
        next_nodes = [[] for _ in range(node_count)]
        missing = [0] * node_count
        for place in range(1, count):
            if place != self.last and self.entry[place]:
                next_nodes[count + self.entry[place] - 1].append(place)
                missing[place] += 1
            for first in self.reasons[place]:
                if first:
                    next_nodes[first].append(place)
                    missing[place] += 1
        for at, (_, place) in enumerate(chain):
            next_nodes[place].append(count + at)
            missing[count + at] += 1
            if at:
                next_nodes[count + at - 1].append(count + at)
                missing[count + at] += 1
        ready = [node for node in range(1, node_count) if not missing[node]]
        before = [1] * node_count
        before[0] = 0
        order = []
        while ready:
            node = ready.pop()
            order.append(node)
            mine = before[node] | (1 << node if node < count else 0)
            for then in next_nodes[node]:
                before[then] |= mine
                missing[then] -= 1
                if not missing[then]:
                    ready.append(then)
        if len(order) < node_count - 1 or self.reasons[0]:
            raise Wrong(self.circle(next_nodes, {node for node in range(node_count) if missing[node]}))
        after = [0] * node_count
        for node in reversed(order):
            mine = 0
            for then in next_nodes[node]:
                mine |= after[then] | (1 << then if then < count else 0)
            after[node] = mine
        after[0] = (1 << count) - 2
        if self.before is None:
            self.news = (1 << count) - 1
        else:
            known = zip(self.before, self.after, before, after)
            self.news = sum(1 << place for place, (one, other, new, newer) in enumerate(known) if one != new or other != newer)
        self.before, self.after, self.next_nodes, self.order = before[:count], after[:count], next_nodes, order

    def circle(self, next_nodes, left):
        """The commands of a short circle."""
        if self.reasons[0]:
            first, reason = next(iter(self.reasons[0].items()))
            return f"{self.name(first)}\n    comes before the opening: {reason}"
        best = None
        for start in sorted(it for it in left if it < self.count)[:200]:
            # (A step to or from an answer doesn't count.)
            reached, edge, found = {start: None}, [start], None
            while edge and found is None:
                later, stack = [], list(edge)
                while stack and found is None:
                    node = stack.pop()
                    for then in next_nodes[node]:
                        if then == start:
                            found = node
                            break
                        if then in left and then not in reached:
                            reached[then] = node
                            (stack if then >= self.count else later).append(then)
                edge = later
            if found is None:
                continue
            path = [start]
            while found is not None:
                path.append(found)
                found = reached[found]
            path = path[::-1]
            steps = [it for it in path if it < self.count]
            if best is None or len(steps) < len(best):
                best = steps
            if len(best) <= 3:
                break
        told = []
        for first, then in zip(best, best[1:]):
            told.append(f"{self.name(first)}\n    comes before the following: {self.reasons[then].get(first, 'it was answered before that was sent')}")
        return "\n    ".join(told + [self.name(best[-1])])

    def infer(self):
        """Adds the edges that follow from what READs show; whether there was a new one."""
        is_new = False
        before, after, news, unseen = self.before, self.after, self.news, self.unseen
        self.unseen = set()
        for key, cell in list(self.shows.items()):
            place, source, writers = key
            if not (news >> place | news >> source) & 1 and key not in unseen:
                continue
            others = writers & ~(1 << source)
            early = before[place] & others & ~before[source]
            for it in bits(early):
                why = ", because this one is confirmed" if place == self.last and it in self.reasons[place] else ""
                self.lead(it, source, f"{self.name(place)} shows the other's value in cell {cell}, and comes after both{why}")
                is_new = True
            late = after[source] & others & ~after[place] & ~(1 << place)
            for it in bits(late):
                self.lead(place, it, f"it shows cell {cell} as {self.name(source)} left it, and the other writes that cell later than that")
                is_new = True
        for key, entry in self.zeroes.items():
            place, writers, _ = key
            cell, able, is_one = entry
            if is_one or not (news >> place & 1 or news & able or key in unseen):
                continue
            known = before[place] & writers
            able &= ~after[place]
            for it in bits(able & known):
                if after[it] & known:
                    able &= ~(1 << it)
            if not able:
                raise Wrong(self.no_zeroes(place, cell))
            entry[1] = able
            if able & (able - 1) == 0:
                entry[2] = True
                self.show(place, able.bit_length() - 1, writers, cell)
                is_new = True
                continue
            common_before = common_after = (1 << self.count) - 1
            for it in bits(able):
                common_before &= before[it]
                common_after &= after[it]
            for it in bits(common_before & ~before[place]):
                self.lead(it, place, f"that shows zeroes in cell {cell}, and each command that may have left them comes after this one")
                is_new = True
            for it in bits(common_after & writers & ~after[place]):
                self.lead(place, it, f"it shows zeroes in cell {cell}, and the other writes that cell after each command that may have left them")
                is_new = True
        return is_new

    def no_zeroes(self, place, cell):
        """Why a READ can't show zeroes in a cell, with the last commands that wrote zeroes there."""
        told = [f"{self.name(place)}\n    shows zeroes in cell {cell}, which no command can have left there:"]
        for it in list(bits(self.zeroing[cell]))[-3:]:
            later = self.after[it] & self.before[place] & self.writers[cell]
            if self.after[place] >> it & 1:
                told.append(f"{self.name(it)} comes after it")
            elif later:
                told.append(f"{self.name(it)} comes before {self.name(next(bits(later)))}")
            else:
                told.append(f"{self.name(it)} was excluded by a trial")
        return "\n    ".join(told)

    def wants(self, place):
        """For each cell of a READ the set of writes that it may show there."""
        found = []
        for cell, value in self.cells_of(place):
            if value:
                found.append((cell, 1 << (0 if self.opening[cell] == value else self.of_value[value])))
            else:
                found.append((cell, self.zeroes[place, self.writers[cell], self.zeroing[cell]][1]))
        return found

    def search(self):
        """An order, or the choice at which the search got stuck.

        A READ is put into the order as soon as it fits. Of the writes that may come next, the one that is due first comes, unless it destroys
        a value that a READ still has to show.
        """
        count, next_nodes = self.count, self.next_nodes
        due = [self.commands[it].answered if 0 < it < len(self.commands) else NEVER for it in range(count)] + [moment for moment, _ in self.chain]
        missing = [0] * len(due)
        for node in reversed(self.order):
            due[node] = min([due[node], *(due[then] for then in next_nodes[node])])
            for then in next_nodes[node]:
                missing[then] += 1
        # For each cell and write the READs that may show it there and aren't in the order yet, each with all that it may show.
        wants, wanted = {place: self.wants(place) for place in self.readers}, {}
        for place, cells in wants.items():
            for cell, able in cells:
                for it in bits(able):
                    wanted.setdefault((cell, it), {})[place] = able
        last = dict.fromkeys(self.opening, 0)
        order, reads, writes = [], [], []
        # The commands that aren't in the order yet; of READs it doesn't matter.
        left = (1 << count) - 2
        needed = sum(1 for it in range(1, count) if it == self.last or self.commands[it].answered < NEVER)

        def arrive(nodes):
            """Takes commands for which nothing is missing any more."""
            while nodes:
                node = nodes.pop()
                if node < count:
                    (reads if node in wants else writes).append(node)
                else:
                    come(node, nodes)

        def come(node, nodes):
            for then in next_nodes[node]:
                missing[then] -= 1
                if not missing[then]:
                    nodes.append(then)

        def put(place):
            nonlocal needed
            order.append(place)
            needed -= place == self.last or self.commands[place].answered < NEVER
            nodes = []
            come(place, nodes)
            arrive(nodes)

        def put_reads():
            again = True
            while again:
                again = False
                for place in list(reads):
                    if all(able >> last[cell] & 1 for cell, able in wants[place]):
                        reads.remove(place)
                        for cell, able in wants[place]:
                            for it in bits(able):
                                del wanted[cell, it][place]
                        put(place)
                        again = True

        def harm_of(place):
            """2 if a write destroys what a READ has to show, 1 if that READ has another choice, otherwise 0."""
            found = 0
            for cell in self.commands[place].cells:
                for able in wanted.get((cell, last[cell]), {}).values():
                    if not able >> place & 1:
                        if not able & left & ~(1 << place):
                            return 2
                        found = 1
            return found

        def choice():
            for place in writes:
                for cell in self.commands[place].cells:
                    for reader, able in wanted.get((cell, last[cell]), {}).items():
                        if not able >> place & 1 and not able & left & ~(1 << place):
                            if able & (able - 1):
                                return self.is_shown, (reader, cell, last[cell])
                            return self.is_first, (place, last[cell], reader, cell)
            for reader in reads:
                for cell, able in wants[reader]:
                    if not able >> last[cell] & 1:
                        return self.is_shown, (reader, cell, next(bits(able)))
            raise AssertionError("there is no choice")

        arrive([node for node in range(1, len(due)) if not missing[node]])
        put_reads()
        while needed:
            writes.sort(key=lambda it: (due[it], it))
            chosen, worst = None, 2
            for it in writes:
                harm = harm_of(it)
                if harm < worst:
                    chosen, worst = it, harm
                if not harm:
                    break
            if chosen is None:
                return None, choice()
            writes.remove(chosen)
            left &= ~(1 << chosen)
            for cell in self.commands[chosen].cells:
                last[cell] = chosen
            put(chosen)
            put_reads()
        found = [None if it == self.last else self.commands[it] for it in order]
        if not is_order(self.opening, [it for it in self.all if len(it.cells)], self.end, [it for it in self.must if len(it.cells)], found):
            raise AssertionError("an order was found that is none")
        return found, None

    def is_first(self, place, source, reader, cell, is_so):
        """Chooses whether a write of a cell comes before the one whose value a READ shows there; otherwise it comes after the READ."""
        if is_so:
            self.lead(place, source, f"tried, for cell {cell}")
        else:
            self.lead(reader, place, f"it shows cell {cell} as {self.name(source)} left it, and if the other came before that there would be a circle")

    def is_shown(self, reader, cell, source, is_so):
        """Chooses whether a READ shows the zeroes of this command in a cell."""
        key = reader, self.writers[cell], self.zeroing[cell]
        self.zeroes[key][1] = 1 << source if is_so else self.zeroes[key][1] & ~(1 << source)
        self.unseen.add(key)

    def state(self):
        return [dict(it) for it in self.reasons], dict(self.shows), {key: list(entry) for key, entry in self.zeroes.items()}

    def settle(self):
        self.close()
        while self.infer():
            self.close()


def judge(mode, opening, commands, end=None):
    """FITS with an order, WRONG with a reason, or UNDECIDED. `opening` and `end` have the value of each cell; without `end` nothing is known of the
    next opening."""
    tried = []
    try:
        it = Judge(mode if end is not None else "ordered", opening, commands, end)
    except Wrong as reason:
        return WRONG, str(reason)
    for _ in range(TRIES):
        try:
            it.settle()
        except Wrong as reason:
            if not tried:
                return WRONG, str(reason)
            # The choice that was tried last is wrong, so its other side holds.
            (it.reasons, it.shows, it.zeroes), answer, words = tried.pop()
            it.before = it.after = None
            answer(*words, False)
            continue
        order, choice = it.search()
        if order is not None:
            return FITS, order
        answer, words = choice
        tried.append((it.state(), answer, words))
        answer(*words, True)
    return UNDECIDED, None
