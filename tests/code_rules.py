"""The rules of code, worked from docs/LANGUAGE.md alone: `fault_of` gives the first instruction that breaks one."""

from listings import COMMANDS, OPERANDS

MOST_NUMBERS = 268_435_456
ENDS = set("jump match return case offer halt link linkneg race go".split())
TAKES = {"cons": 2, "pair": 2, "unless": 1, "return": 1, "put": 1}
LEAVES = set("int char bool nil text load cons pair build op call".split())
OF_ONE = {"neg", "code", "char"}


def named(letters, instruction):
    """The operands of these kinds, lists among them one by one."""
    for letter, operand in zip(OPERANDS[instruction[0]], instruction[1:]):
        if letter in letters:
            yield from operand if isinstance(operand, list) else [operand]


def finds(tree, binds):
    """Whether each row that a decision names is there, with as many places as it has variables."""
    if tree is None:
        return True
    if tree[0] == "row":
        return tree[1] < len(binds) and len(tree[2]) == binds[tree[1]]
    return finds(tree[3], binds) and finds(tree[4], binds)


class Judge:
    """One block of code."""

    def __init__(self, code, in_process, block):
        self.code, self.in_process, self.block = code, in_process, block

    # By itself

    def has_operands(self, instruction):
        """Whether the operands of an instruction are in their ranges."""
        word, *operands = instruction
        code = self.code
        if any(one >= MOST_NUMBERS for one in named("veE", instruction)):
            return False
        if any(one >= len(self.block) for one in named("lL", instruction)):
            return False
        if word == "call":
            return operands[0] < len(code.functions)
        if word in ("match", "case"):
            number, first, places = operands
            if number >= len(code.decisions):
                return False
            decision = code.decisions[number]
            fits = len(places) == len(decision.binds) and finds(decision.tree, decision.binds)
            return fits and all(first + count <= MOST_NUMBERS for count in decision.binds)
        if word == "go":
            called, channels = operands
            return called < len(code.processes) and len(channels) == sum(code.processes[called][2:4])
        if word == "race":
            return all(self.block[place][0] in ("get", "offer", "split") for place in operands[0])
        return True

    def is_sound(self, place):
        """Whether the instruction at a place breaks no rule but perhaps one of the stack."""
        instruction = self.block[place]
        word = instruction[0]
        belongs = word != "return" if self.in_process else word not in COMMANDS
        return self.has_operands(instruction) and belongs and (word in ENDS or place + 1 < len(self.block))

    # On the stack

    def takes(self, instruction):
        word, *operands = instruction
        if word == "build":
            return operands[1]
        if word == "op":
            return 1 if operands[0] in OF_ONE else 2
        if word in ("call", "go"):
            blocks = self.code.functions if word == "call" else self.code.processes
            return blocks[operands[0]].variables if operands[0] < len(blocks) else 0
        if word in ("match", "case"):
            return self.code.decisions[operands[0]].takes if operands[0] < len(self.code.decisions) else 0
        return TAKES.get(word, 0)

    def fits(self, instruction, height):
        """Whether there are as many values as it takes, and for an instruction of a process no more."""
        taken = self.takes(instruction)
        return height == taken if instruction[0] in COMMANDS else height >= taken

    def hands(self, place, height):
        """What an instruction hands on, to each place where it can go on."""
        instruction = self.block[place]
        if not self.is_sound(place) or not self.fits(instruction, height):
            return {}
        children = {instruction[-1]} if instruction[0] in ("fork", "peel") else set()
        ways = set(named("lL", instruction)) - children
        if instruction[0] not in ENDS:
            ways.add(place + 1)
        return {way: height - self.takes(instruction) + (instruction[0] in LEAVES) for way in ways}

    def heights(self):
        """The number of values at each place that is reached."""
        newest = {0: 0}
        for instruction in self.block:
            if instruction[0] in ("fork", "peel") and instruction[-1] < len(self.block):
                newest[instruction[-1]] = 0
        found = {}
        while newest:
            found.update(newest)
            later = {}
            for place in sorted(newest):
                for way, height in self.hands(place, newest[place]).items():
                    if way not in found:
                        later.setdefault(way, height)
            newest = later
        return found

    def fault(self):
        """The first place that breaks a rule, or None."""
        if not self.block:
            return 0
        heights = self.heights()
        at_odds = {way for place in heights for way, height in self.hands(place, heights[place]).items() if heights.get(way, height) != height}
        for place, instruction in enumerate(self.block):
            if not self.is_sound(place) or place in at_odds:
                return place
            if place in heights and not self.fits(instruction, heights[place]):
                return place
        return None


def fault_of(code):
    """The block and the place of the first instruction that breaks a rule, or None. Functions are numbered first."""
    kinds = [False] * len(code.functions) + [True] * len(code.processes)
    for number, (in_process, block) in enumerate(zip(kinds, code.functions + code.processes)):
        place = Judge(code, in_process, block.code).fault()
        if place is not None:
            return number, place
    return None
