"""What code of functions does, worked from a listing by the table of instructions in docs/LANGUAGE.md."""

import evaluation as v

OPERATIONS = {
    "add": "+", "sub": "-", "mul": "*", "div": "div", "mod": "mod", "eq": "==", "ne": "/=", "lt": "<", "le": "<=", "gt": ">", "ge": ">=",
}
OF_ONE = {"neg": v.negated, "code": v.code_of_character, "char": v.character_of_code}


class Frame:
    def __init__(self, block, variables):
        self.code, self.variables, self.stack, self.place = block.code, variables, [], 0

    def popped(self, count):
        """The top values, the lowest first."""
        assert len(self.stack) >= count
        taken = self.stack[len(self.stack) - count :]
        del self.stack[len(self.stack) - count :]
        return taken


def operated(name, frame):
    if name in OF_ONE:
        return OF_ONE[name](*frame.popped(1))
    left, right = frame.popped(2)
    if name == "append":
        return v.appended(left, right)
    return (v.calculated if name in ("add", "sub", "mul", "div", "mod") else v.compared)(OPERATIONS[name], left, right)


class Machine:
    """Code, with the rows of patterns that each of its decisions is for."""

    def __init__(self, known, code, rows):
        self.known, self.code, self.rows = known, code, rows

    def entered(self, number, arguments):
        block = self.code.functions[number]
        assert len(arguments) == block.variables
        return Frame(block, dict(enumerate(arguments)))

    def run(self, number, arguments, calls):
        """What a function gives, with the calls that are left: a value, `deep` or `more`. Its own call is one of them."""
        if not calls:
            return "more", 0
        calls -= 1
        frames = [self.entered(number, arguments)]
        while True:
            frame = frames[-1]
            word, *operands = frame.code[frame.place]
            frame.place += 1
            if word == "return":
                (value,) = frame.popped(1)
                frames.pop()
                if not frames:
                    return value, calls
                frames[-1].stack.append(value)
            elif word == "call":
                if not calls:
                    return "more", 0
                calls -= 1
                frames.append(self.entered(operands[0], frame.popped(self.code.functions[operands[0]].variables)))
            else:
                try:
                    self.step(frame, word, operands)
                except v.Stop:
                    return "deep", calls

    def step(self, frame, word, operands):
        push = frame.stack.append
        if word == "int":
            push(v.number(*operands))
        elif word == "char":
            push(v.constant("char", chr(operands[0])))
        elif word == "bool":
            push(v.truth(operands[0] == "True"))
        elif word == "nil":
            push(v.NIL)
        elif word == "text":
            push(v.text(*operands))
        elif word == "load":
            push(frame.variables.get(operands[0], v.NIL))
        elif word == "cons":
            push(v.cell(*frame.popped(2)))
        elif word == "pair":
            push(v.pair(*frame.popped(2)))
        elif word == "build":
            push(v.built(operands[0], frame.popped(operands[1])))
        elif word == "op":
            push(operated(operands[0], frame))
        elif word == "jump":
            frame.place = operands[0]
        elif word == "unless":
            if not frame.popped(1)[0].kind[1]:
                frame.place = operands[0]
        else:
            assert word == "match", word
            number, first, places = operands
            rows = self.rows[number]
            row, found = v.first_match(self.known, rows, frame.popped(len(rows[0])))
            frame.variables.update(enumerate(found, first))
            frame.place = places[row]
