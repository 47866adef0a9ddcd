"""Random small designs with a wrong line, and tests of the right ones, for scripts that compare lists of sets."""

import random
from dataclasses import dataclass

OPERATIONS = {"and": "%s & %s", "or": "%s | %s", "xor": "%s ^ %s", "not": "~%s", "choose": "%s ? %s : %s"}
MEANINGS = {"and": lambda a, b: a & b, "or": lambda a, b: a | b, "xor": lambda a, b: a ^ b, "not": lambda a: 1 - a, "choose": lambda a, b, c: b if a else c}
OPERANDS = {"and": 2, "or": 2, "xor": 2, "not": 1, "choose": 3}


@dataclass
class Design:
    """Signals of one bit: the inputs, the registers with the signal that each takes, the nets with operation and operands, and the outputs."""
    inputs: list
    registers: dict
    nets: dict
    outputs: list

    def text(self):
        """The design in Verilog."""
        clock = ["input clk"] if self.registers else []
        ports = clock + ["input " + name for name in self.inputs] + ["output %s_out" % name for name in self.outputs]
        lines = ["module m(%s);" % ", ".join(ports)]
        lines += ["reg %s = 0;" % name for name in self.registers] + ["wire %s;" % name for name in self.nets]
        lines += ["assign %s = %s;" % (name, OPERATIONS[kind] % tuple(of)) for name, (kind, of) in self.nets.items()]
        lines += ["always @(posedge clk) %s <= %s;" % it for it in self.registers.items()]
        return "\n".join(lines + ["assign %s_out = %s;" % (name, name) for name in self.outputs] + ["endmodule", ""])

    def run(self, rows):
        """The values of the outputs in each cycle, by those of the inputs."""
        state, found = dict.fromkeys(self.registers, 0), []
        for row in rows:
            values = {**dict(zip(self.inputs, row)), **state}
            for name, (kind, of) in self.nets.items():
                values[name] = MEANINGS[kind](*(values[it] for it in of))
            found.append([values[name] for name in self.outputs])
            state = {name: values[source] for name, source in self.registers.items()}
        return found


def net_of(chance, known):
    kind = chance.choice(list(OPERATIONS))
    return kind, [chance.choice(known) for _ in range(OPERANDS[kind])]


def random_design(chance):
    inputs = ["i%d" % it for it in range(chance.randrange(2, 5))]
    registers, nets = ["r%d" % it for it in range(chance.randrange(3))], {}
    for number in range(chance.randrange(4, 10)):
        nets["n%d" % number] = net_of(chance, inputs + registers + list(nets))
    outputs = chance.sample(list(nets), chance.randrange(1, 4))
    return Design(inputs, {name: chance.choice(list(nets)) for name in registers}, nets, outputs)


def with_wrong_line(chance, design):
    """The design with another right side of one net."""
    name = chance.choice(list(design.nets))
    before = list(design.nets)[:list(design.nets).index(name)]
    return Design(design.inputs, design.registers, {**design.nets, name: net_of(chance, design.inputs + list(design.registers) + before)}, design.outputs)


def dump_text(design, rows):
    """What a simulator of the right design writes of these inputs."""
    names = design.inputs + ["%s_out" % it for it in design.outputs]
    codes = {name: chr(34 + at) for at, name in enumerate(names)}
    head = "$timescale 1ns $end\n$scope module m $end\n$var wire 1 ! clk $end\n"
    head += "".join("$var wire 1 %s %s $end\n" % (codes[name], name) for name in names) + "$upscope $end\n$enddefinitions $end\n"
    stamps = []
    for cycle, (row, found) in enumerate(zip(rows, design.run(rows))):
        changes = ["%d%s" % (value, codes[name]) for name, value in zip(names, row + found)]
        rise = "#%d\n1!\n" % (10 * cycle + 5) if design.registers else ""
        stamps.append("#%d\n0!\n%s\n%s" % (10 * cycle, "\n".join(changes), rise))
    return head + "".join(stamps)


def random_question(seed):
    """The text of a wrong design, dumps of the right one, and the further words of the question."""
    chance = random.Random(seed)
    right = random_design(chance)
    wrong = with_wrong_line(chance, right)
    tests = [[[chance.randrange(2) for _ in right.inputs] for _ in range(chance.randrange(1, 5))] for _ in range(chance.randrange(2, 5))]
    words = ["--size", str(chance.choice([1, 2, 2, 3]))] + (["--clock", "clk"] if right.registers else [])
    return wrong.text(), [dump_text(right, rows) for rows in tests], words + chance.choice([[], [], ["--suspects", "block,stmt"]])
