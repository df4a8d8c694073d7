"""What the checks of tests/servers are counted with, and how they say what is wrong: in a text, empty where nothing is."""

class Checks:
    """What passed so far, and the program that is looked at."""

    def __init__(self, machine, program):
        self.machine, self.program = machine, program
        self.passed = self.failed = self.skipped = 0
        self.built = {}

    def expect(self, name, *wrong):
        """The check of this name has passed where nothing is wrong."""
        wrong = [text for text in wrong if text]
        if wrong:
            self.failed += 1
            print("failed: %s: %s" % (name, "; ".join(map(str, wrong))[:600]), flush=True)
        else:
            self.passed += 1
            print("passed: " + name, flush=True)

    def skip(self, name, why):
        self.skipped += 1
        print("skipped: %s: %s" % (name, why), flush=True)

    def ours(self, *words):
        return self.machine.run(self.program, *words)

    def is_built(self, command):
        """Whether the program has this command, which else answers NotBuilt."""
        if command not in self.built:
            self.built[command] = "NotBuilt" not in self.ours(command, self.machine.path("nothing")).stderr
        return self.built[command]

    def answers(self, status, out, err, *words):
        """What is wrong with a run of the program, if anything."""
        ended = self.ours(*words)
        return unequal((status, out, err), (ended.returncode, ended.stdout, ended.stderr))

    def step(self, go, *words):
        """Goes through some checks. What stops them is a failure."""
        try:
            return go(self, *words)
        except Exception as error:
            self.expect(go.__name__.replace("_", " "), "stopped by %s: %s" % (type(error).__name__, error))
            return None


def unequal(wanted, seen):
    return "" if wanted == seen else "wanted %.400r, saw %.400r" % (wanted, seen)


def unequal_lines(wanted, seen):
    """The first lines of two texts that differ."""
    if wanted == seen:
        return ""
    at = next((n for n, (one, other) in enumerate(zip(wanted, seen)) if one != other), min(len(wanted), len(seen)))
    return "%d and %d lines, from line %d on wanted %.300r, saw %.300r" % (
        len(wanted), len(seen), at + 1, wanted[at:at + 2], seen[at:at + 2])


def control_lines(text, *but):
    return [line for line in text.split("\n") if not line.startswith(but or ("-",))]
