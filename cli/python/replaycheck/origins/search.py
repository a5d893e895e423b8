"""The search for what an error hangs on. A mark never changes a value, so that the run stays the same, and whether the
error is still made tells whether it hangs on the marked bytes. Each answer is a report."""
from dataclasses import dataclass
from typing import List, Tuple

from replaycheck.guest.regions import HEAP_SIZE

from .image import HEAP_FUNCTIONS, joined
from .trials import errors_of

REACHES = (0x1000, 0x10000, 0x100000, 0x1000000)  # so much of the heap and of the stack is looked at, as it is needed
NEAR, CLOSE, FAR = 16, 64, 10000
AWAY = (*range(8), *(n << k for k in range(2, 11) for n in (2, 3)))
MANY = 16  # of more bytes the moves of the first one are told
WINDOWS, LOOK_ON = (1000, 8000, 64000), 512  # so far back and on a value that was in registers alone is looked for
MOST_GROUPS, MOST_MOVES = 500, 24


@dataclass
class Group:
    """Ranges of bytes that are undefined before a step. `made` is what made them so, where that is known: `frame`,
    `heap`, `start`, a line of the user, `old` where the search went no further back, `lost` where it was a register,
    `read` where they were only read. A wide one has all memory, of which it isn't known yet what is needed."""

    step: int
    ranges: List[Tuple[int, int]]
    made: str = ""
    heap: str = ""
    is_wide: bool = False

    @property
    def marks(self):
        return marked(self.step, self.ranges)


def marked(step, ranges):
    return [(step, low, high) for low, high in ranges]


def most(low, high, helps):
    """The greatest number below a limit that helps, where the least one does and none behind one that doesn't."""
    while high - low > 1:
        middle = (low + high) // 2
        low, high = (middle, high) if helps(middle) else (low, middle)
    return low


def before_and_at(step):
    """A step, those just before it, and some further back: a value that is in a register at the one is in memory at
    another."""
    return sorted({max(0, step - away) for away in AWAY})


def size_of(ranges):
    return sum(high - low for low, high in ranges)


def marks_of(groups):
    return [mark for group in groups for mark in group.marks]


class Search:
    """The search for one error, a text and its trace, which the report at `last` has."""

    def __init__(self, trials, image, error, last):
        self.trials, self.image, self.error, self.known = trials, image, error, {}
        low, high = 1, last
        while low < high:
            middle = (low + high) // 2
            has = error in errors_of(trials.report(middle))
            low, high = (low, middle) if has else (middle + 1, high)
        self.step = low - 1  # it is made in this step
        self.floor = 0  # the first step that is looked at
        self.shapes = []  # many bytes that were last read together: they may have been moved together
        self.reach(0)

    def reach(self, index):
        """Looks at more of the heap and of the stack; after the last of these, at all of the heap that has blocks."""
        self.reached, self.memory = index, self.image.memory(REACHES[index] if index < len(REACHES) else self.whole_heap())

    def whole_heap(self):
        """How far into the heap the last block ends, and at least what was looked at before."""
        heap, least = self.image.elf.regions.heap, REACHES[-1]

        def blocks_from(reach):
            return self.trials.blocks_from(self.step, heap + reach)
        if not blocks_from(least):
            return least
        start, size = blocks_from(most(least, HEAP_SIZE, blocks_from))[0]
        return start + size - heap

    # ---- questions

    def removes(self, marks):
        """Whether the report after the step of the error hasn't it with these marks."""
        marks = frozenset(mark for mark in marks if mark[0] <= self.step)
        if marks not in self.known:
            self.known[marks] = self.lacks(marks)
        return self.known[marks]

    def lacks(self, marks):
        report = self.trials.report(self.step + 1, [(*mark, "defined") for mark in marks])
        return self.error not in errors_of(report)

    def all_at(self, *steps):
        return [mark for step in steps for mark in marked(step, self.memory)]

    def address(self, step):
        """Where the program is before a step, or None where it has ended."""
        words = self.trials.report(step)[1].split(" ")
        return int(words[2], 16) if words[1] == "running" else None

    def kind(self, step):
        address = self.address(step)
        return "other" if address is None else self.image.kind(address)

    # ---- bytes

    def least(self, step, beside, tried=()):
        """A least set of bytes that must be marked at a step beside other marks: those that are tried, if they do, or
        many that are known, at another place. Of many others some that needn't be may stand among those that must."""
        if tried and self.removes(beside + marked(step, tried)):
            return list(tried)
        if self.shapes:
            first = self.first_byte(step, beside)
            for shape in self.shapes:
                moved = [(low + first - shape[0][0], high + first - shape[0][0]) for low, high in shape]
                if moved[-1][1] <= 1 << 32 and self.fits(step, moved, beside):
                    return moved
        grain = max([1, *(size_of(shape) // 128 for shape in self.shapes)])
        found = joined((low, high) for _, low, high in self.least_marks(self.all_at(step), beside, grain))
        return self.trimmed(step, found, beside) if grain > 1 else found

    def fits(self, step, ranges, beside):
        """Whether ranges must be marked at a step, as far as each range and the last byte tell."""
        *rest, (low, high) = ranges
        fewer = [[*rest, (low, high - 1)], *(ranges[:i] + ranges[i + 1:] for i in range(len(ranges)))]
        return self.removes(beside + marked(step, ranges)) and not any(
            self.removes(beside + marked(step, part)) for part in fewer)

    def first_byte(self, step, beside):
        """The first byte that must be marked at a step."""
        low = most(0, size_of(self.memory), lambda size: self.removes(beside + halves(self.all_at(step), size)[1]))
        return halves(self.all_at(step), low)[1][0][1]

    def trimmed(self, step, ranges, beside):
        """Ranges without what needn't be marked at their ends."""
        found = list(ranges)
        for index, (low, high) in enumerate(ranges):
            def helps(first, end):
                return self.removes(beside + marked(step, [*found[:index], (first, end), *found[index + 1:]]))
            first = low + most(0, high - low, lambda away: helps(low + away, high))
            end = high - most(0, high - first, lambda away: helps(first, high - away))
            found[index] = (first, end)
        return found

    def least_marks(self, marks, beside, grain=1, may_go=False):
        """A least part of marks that removes the error beside others: of one half, and then of the other."""
        if may_go and self.removes(beside):
            return []
        size = sum(high - low for _, low, high in marks)
        if size <= grain:
            return marks
        left, right = halves(marks, size // 2)
        of_right = self.least_marks(right, beside + left, grain, True)
        return met(self.least_marks(left, beside + of_right, grain, bool(of_right)), of_right)

    # ---- steps

    def moments(self, last, beside):
        """The latest steps, up to one, at which all memory must be marked to remove the error beside others, as the
        value was in memory then. None where they aren't found."""
        begun = self.reached
        for index in range(begun, len(REACHES) + 1):
            self.reach(index)
            for steps in self.close_steps(last):
                if self.removes(beside + self.all_at(*steps)):
                    return self.latest(steps, beside)
        self.reach(max(begun, 1))
        for window in WINDOWS:
            steps = self.creating(max(0, last - window), last)
            if self.removes(beside + self.all_at(*steps)):
                return self.latest(steps, beside)
            if last <= window:
                break
        return []

    def creating(self, first, last):
        """A first step, and the latest ones up to the last before which an instruction can have made bytes
        undefined."""
        addresses = self.trials.addresses(first, last)
        creates = {address for address in set(addresses) if self.image.creates(address)}
        steps = {first + index + 1 for index, address in enumerate(addresses) if address in creates}
        steps |= {step for step, *_ in self.image.marked if first < step <= last}
        room = self.trials.room // 2 // len(self.memory)
        return [first, *sorted(steps)[-room:]]

    def close_steps(self, last):
        near = min(NEAR, self.trials.room // 2 // len(self.memory))
        yield list(range(max(0, last - near + 1), last + 1))
        yield self.samples(last)

    def samples(self, last):
        """The last steps up to one, and ever fewer before them."""
        steps, away = set(range(max(0, last - CLOSE + 1), last + 1)), CLOSE
        while away <= last and len(steps) * len(self.memory) < self.trials.room // 3:
            steps.add(last - away)
            away += away // 4
        return sorted(steps)

    def latest(self, steps, beside):
        """A least part of steps, each as late as can be."""
        found, begin = [], 0
        while begin < len(steps) and not self.removes(beside + self.all_at(*found)):
            low, high = begin, len(steps)
            while high - low > 1:
                middle = (low + high) // 2
                helps = self.removes(beside + self.all_at(*found, *steps[middle:]))
                low, high = (middle, high) if helps else (low, middle)
            found.append(steps[low])
            begin = low + 1
        return found

    def groups_at(self, steps, beside):
        """The bytes that must be marked at each of these steps."""
        found = []
        for index, step in enumerate(steps):
            others = beside + marks_of(found) + self.all_at(*steps[index + 1:])
            ranges = self.least(step, others)
            if ranges:
                found.append(Group(step, ranges))
        return found

    def last_reads(self):
        """Where the value was last in memory before the error: groups that together explain it. None where that isn't
        found."""
        self.trials.doing = "the last reads"
        groups = self.groups_at(self.moments(self.step, []), [])
        for group in groups:
            others = marks_of(other for other in groups if other is not group)
            group.step = self.last_with(group.step, group.ranges, others)
        self.shapes = [group.ranges for group in groups if size_of(group.ranges) > MANY]
        return groups

    def last_with(self, step, ranges, beside):
        """The last step, from one on, at which these bytes may be marked to remove the error: it reads them."""
        return most(step, self.step + 1, lambda later: self.removes(beside + marked(later, ranges)))

    def was_there(self, step, beside):
        """Whether the value was in memory at a step, or shortly before it and then in registers."""
        if step < 0:
            return False
        if self.step - step < FAR and self.removes(beside + self.all_at(step)):
            return True
        return self.removes(beside + self.all_at(*before_and_at(step)))

    def earliest(self, step, beside):
        """How far back from a step the value was in memory, but for short moments in registers."""
        end = min(self.floor, step) - 1
        low, high, stride = step - 1, step, 1
        while low > end and self.was_there(low, beside):
            low, high, stride = max(end, low - stride), low, stride * 2
        while high - low > 1:
            middle = (low + high) // 2
            low, high = (low, middle) if self.was_there(middle, beside) else (middle, high)
        return high

    # ---- back to what made them undefined

    def origins(self, groups):
        """What made bytes undefined on which the error hangs, by way of those of some groups. All groups together
        remove the error at each moment, as a group is only replaced by earlier ones that do so beside the others. None
        where it was moved too often."""
        self.trials.doing = "what made them undefined"
        waiting, found = list(groups), []
        for _ in range(MOST_GROUPS):
            if not waiting:
                return merged(found)
            waiting.sort(key=lambda queued: queued.step)
            group = waiting.pop()
            beside = marks_of(waiting + found)
            if self.removes(beside):
                continue
            earlier, made = self.before(group, beside)
            waiting, found = waiting + earlier, found + made
        return []

    def before(self, group, beside):
        """What a group comes from: earlier groups, and groups of which it is known what made them."""
        step = self.earliest(group.step, beside)
        if not self.removes(beside + self.all_at(step)):  # some of it was in a register then
            steps = self.latest(before_and_at(step), beside)
            return self.earlier(steps, beside), []
        group = Group(step, self.least(step, beside, () if group.is_wide else group.ranges))
        if step <= self.floor:
            return [], self.by_lines(group, "old" if step else "start")
        kind = self.kind(step - 1)
        if kind in ("frame", "call", *HEAP_FUNCTIONS) or self.by_lines(group, "")[0].made:
            return self.parted(group, beside, kind)
        earlier = self.earlier(self.moments(step - 1, beside), beside)
        if earlier and self.removes(beside + marks_of(earlier)):
            return earlier, []
        return [], [Group(step, group.ranges, "lost")]

    def earlier(self, steps, beside):
        """Groups at steps. Where many bytes are moved, one after another, it is left open which they are then."""
        if self.shapes and len(steps) == 1:
            return [Group(steps[0], list(self.memory), is_wide=True)]
        return self.groups_at(steps, beside)

    def parted(self, group, beside, kind):
        """The ranges of a group that were undefined before the step that made others so, and these others."""
        reached, earlier, made = self.reached, [], []
        for index, span in enumerate(group.ranges):
            others = beside + marks_of(earlier + made) + marked(group.step, group.ranges[index + 1:])
            if kind != "frame":
                self.reach(len(REACHES) - 1)  # a block that moves comes from anywhere
            if self.removes(others + self.all_at(group.step - 1)):
                earlier.append(Group(group.step - 1, self.least(group.step - 1, others, [span])))
            else:
                heap = kind if kind not in ("frame", "call") else ""
                made += self.by_lines(Group(group.step, [span], "frame" if kind == "frame" else "heap", heap))
        if not earlier:
            self.reach(reached)
        return earlier, made

    def by_lines(self, group, made=None):
        """A group, with the line of the user that marked its bytes where one did so; else with what made them."""
        group.made = group.made if made is None else made
        for step, low, high, line in self.image.marked:
            if step == group.step and any(first < high and low < end for first, end in group.ranges):
                group.made = line
        return [group]

    # ---- the certificate

    def needed(self, groups):
        """Groups without what can be left out."""
        marks = marks_of(groups)
        if len(marks) > 1 and sum(high - low for _, low, high in marks) <= CLOSE:
            marks = self.least_marks(marks, [])
        for mark in list(marks):
            rest = [other for other in marks if other != mark]
            marks = rest if self.removes(rest) else marks
        left = [Group(group.step, joined(inside(marks, group)), group.made, group.heap) for group in groups]
        return [group for group in left if group.ranges]

    def certified(self, groups):
        """Whether the report, asked once more, hasn't the error with the marks of all groups, and has it with each left
        out."""
        self.trials.doing = "the certificate"
        self.trials.make_room()
        marks = marks_of(groups)
        return bool(marks) and self.lacks(marks) and not any(
            self.lacks([other for other in marks if other != mark]) for mark in marks)

    # ---- on to the error

    def moves(self, origin, beside):
        """How the bytes of an origin, or the first of many, come to the error: steps, whether each reads or writes, and
        the bytes. The last one is None where there are more."""
        self.trials.doing, self.shapes = "the moves", []
        step, ranges, found = origin.step, origin.ranges, []
        if size_of(ranges) > MANY:
            (first, end), *more = ranges
            ranges, beside = [(first, first + 1)], beside + marked(step, [(first + 1, end)] * (end > first + 1) + more)
        while len(found) < 2 * MOST_MOVES:
            step = self.last_with(step, ranges, beside)
            found.append((step, "read", ranges))
            after = self.first_after(step, beside)
            if after is None:
                return found
            step, ranges = after, self.least(after, beside)
            found.append((step - 1, "written", ranges))
        return found + [None]

    def first_after(self, step, beside):
        """The first step after one at which the value is in memory again; None where it goes to the error without."""
        size = min(LOOK_ON, self.trials.room // 2 // len(self.memory))
        for window in (NEAR, size):
            steps = list(range(step + 1, min(self.step, step + window) + 1))
            if steps and self.removes(beside + self.all_at(*steps)):
                low, high = 0, len(steps)
                while high - low > 1:
                    middle = (low + high) // 2
                    helps = self.removes(beside + self.all_at(*steps[:middle]))
                    low, high = (low, middle) if helps else (middle, high)
                return steps[low] if self.removes(beside + self.all_at(steps[low])) else None
        return None


def halves(marks, room):
    """The first so many bytes of marks, and the others."""
    left, right = [], []
    for step, low, high in marks:
        cut = min(high, low + room)
        left += [(step, low, cut)] if cut > low else []
        right += [(step, cut, high)] if high > cut else []
        room -= cut - low
    return left, right


def met(left, right):
    """Marks, and those that stand behind them: one where two meet."""
    if left and right and left[-1][0] == right[0][0] and left[-1][2] == right[0][1]:
        return [*left[:-1], (*left[-1][:2], right[0][2]), *right[1:]]
    return left + right


def inside(marks, group):
    """The parts of marks that are a group's."""
    for step, low, high in marks:
        for first, end in group.ranges if step == group.step else ():
            if max(low, first) < min(high, end):
                yield max(low, first), min(high, end)


def merged(groups):
    """One group for all bytes that one thing made undefined, by step."""
    found = {}
    for part in groups:
        found.setdefault((part.step, part.made), Group(part.step, [], part.made, part.heap)).ranges.extend(part.ranges)
    for whole in found.values():
        whole.ranges = joined(whole.ranges)
    return sorted(found.values(), key=lambda group: (group.step, group.ranges))
