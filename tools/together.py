"""One check of a crate over bugs in many of its functions at once, and what it says of each.

All that a caller knows of a function is its contract, so a bug in the body of one function changes nothing in the proof of
another. So one check can judge a bug in each of many functions: `rt check` goes on past what it does not prove, and names each
function with what it lacks."""
import collections
import re

# What a check says of the bug of a function: a fact of its proof is false; its proof names what the bug took away; the prover
# met a limit of its own; the edited text is no program; the prover cannot read it; or the function is still proved.
FACT, NAMES, LIMIT, NO_PROGRAM, UNREAD, PROVED = (
    "a false fact", "a name that is gone", "a limit", "no program", "a text that the prover cannot read", "proved")

# How the prover says that a proof names what is not there, or cites what it did not admit
GONE = re.compile(r"has no field|is not in scope|has no `|was not admitted")
LIMITS = re.compile(r"antt ran out of|outgrew the memory limit|stopped at the step limit")


class Report:
    """What `rt check` says of a crate, function by function."""

    def __init__(self, crate, said):
        self.verdict = (re.findall(r"^logic=(proved|not-proved)", said, re.M) or [None])[-1]
        self.limit = LIMITS.search(said) is not None
        # By function: its line, and what is wrong in the files of its proof. By place: what the compiler refuses, what the prover
        # cannot read, and where values are known at which a fact is false.
        self.lines, self.wrong = {}, collections.defaultdict(list)
        self.rejected, self.unread, self.false, self.first = [], [], [], ""
        for line in said.split("\n"):
            self.read(crate, line)

    def read(self, crate, line):
        if found := re.match(r"fn (\S+): (.*)", line):
            self.lines[found.group(1)] = found.group(2)
        elif found := re.match(r"(?:\./)?(src/\S+?):(\d+):\d+: error(\[[\w-]+\])?: ", line):
            (self.rejected if found.group(3) else self.unread).append((found.group(1), int(found.group(2))))
        elif found := re.match(r"(?:\./)?(\S+)/\w+\.antt:\d+:\d+: error: ", line):
            place = found.group(1).removeprefix("proofs/")
            self.wrong["::".join([crate, *place.split("/")])].append(line)
        elif (found := re.match(r"note: (src/\S+?):(\d+):\d+: ", line)) and "allow values at which this goal is false" in line:
            self.false.append((found.group(1), int(found.group(2))))
        if "error" in line and not self.first:
            self.first = line

    def paths_of(self, function):
        """The function as the check names it, and the closures in its body; none if that cannot be told."""
        owner, _, name = function.rpartition("::")
        own = []
        for path in self.lines:
            *above, last = path.split("::")
            if last == name and (above[-1].startswith(owner) if owner else above[-1].islower()) and "fn" not in above:
                own.append(path)
        if len(own) != 1:
            return []
        return own + [path for path in self.lines if path.replace("::fn::", "::").startswith(f"{own[0]}::")]

    def of(self, bug, path):
        """What came of one of the bugs, in a file; None if that cannot be told."""
        if self.rejected:
            return NO_PROGRAM if within(bug, path, self.rejected) else None
        if self.unread:
            return UNREAD if within(bug, path, self.unread) else None
        if self.verdict is None or any(it not in self.lines for it in self.wrong):
            return None
        return self.among(self.paths_of(bug.function))

    def among(self, paths):
        """What came of the bugs of these functions, taken together."""
        if paths and all(self.lines.get(it, "").startswith("proved") for it in paths):
            return PROVED
        wrong = [line for it in paths for line in self.wrong.get(it, [])]
        if any(not GONE.search(line) for line in wrong):
            return FACT
        if wrong:
            return NAMES
        said = [self.lines.get(it, "") for it in paths]
        if any("`search` did not prove" in it and "it calls `" not in it for it in said):
            return FACT
        return LIMIT if any("could not tell" in it for it in said) else None

    def whole(self):
        """What came of the only bug of the crate."""
        if self.rejected or self.unread:
            return NO_PROGRAM if self.rejected else UNREAD
        if self.verdict == "proved":
            return PROVED
        if self.verdict is None:
            return LIMIT if self.limit else None
        return self.among(sorted({*self.lines, *self.wrong})) or FACT

    def false_in(self, path, bug):
        """Whether values are known at which a fact of the bug's function, in a file, is false."""
        return within(bug, path, self.false)

    def first_of(self, function):
        """The first thing that is wrong in the proof of a function, or that the check says of it."""
        paths = self.paths_of(function)
        return next((line for it in paths for line in [*self.wrong.get(it, []), self.lines[it]]), self.first)

    def gone_in(self, function):
        """The answers in the proof of a function that name what is gone."""
        lines = [line for it in self.paths_of(function) for line in self.wrong.get(it, []) if GONE.search(line)]
        return {found.group(1) for line in lines if (found := re.search(r"error: `([^`]+)`", line))}


def within(bug, path, places):
    """Whether one of the places is in the function of a bug, in a file."""
    return any(it == path and bug.first <= line <= bug.last for it, line in places)


def calls(words, names):
    """The functions that each function calls, itself or through others, as far as the words in the bodies tell: the words that
    stand before a bracket in each body, and the last word of each function's name."""
    by_word = collections.defaultdict(set)
    for function, word in names.items():
        by_word[word].add(function)
    found = {}
    for function in names:
        seen, todo = set(), [function]
        while todo:
            fresh = {it for word in words[todo.pop()] for it in by_word[word]} - seen
            seen |= fresh
            todo += fresh
        found[function] = seen
    return found


WORDS = {"==": "eq", "!=": "ne", "<": "lt", "<=": "le", ">": "gt", ">=": "ge"}


def renamed(old, new):
    """How the names in a proof change with a line: a pattern and what stands for it, for each word or comparison that is put
    for another."""
    tokens = [re.findall(r"b?'.'|\w+|[=!<>]=?", it) for it in (old, new)]
    pairs = [(a, b) for a, b in zip(*tokens) if a != b] if len(tokens[0]) == len(tokens[1]) else []
    if len(pairs) != 1:
        return []
    (a, b), (one, two) = pairs[0], tokens
    at = next(i for i, pair in enumerate(zip(one, two)) if pair[0] != pair[1])
    value = lambda it: str(ord(it[-2])) if it.endswith("'") else it.replace("_", "")
    if a in WORDS and b in WORDS:
        following = value(one[at + 1]) if at + 1 < len(one) else ""
        return [(rf"(?<=[.-]){WORDS[a]}{following}\b", f"{WORDS[b]}{following}"), (rf"(?<=c\.){WORDS[a]}\b", WORDS[b])]
    if at and one[at - 1] in WORDS and value(a).isdigit():
        sign = WORDS[one[at - 1]]
        return [(rf"(?<=[.-]){sign}{value(a)}\b", f"{sign}{value(b)}")]
    return [(rf"(?<=[.-]){a}\b", b)] if re.fullmatch(r"[a-z_]\w* [a-z_]\w*", f"{a} {b}") else []


def by_rules(text, rules):
    """The text with each pattern put as its rule says."""
    for pattern, new in rules:
        text = re.sub(pattern, new, text)
    return text


def without(text, answers):
    """A file of answers without some of them."""
    parts = re.split(r"^(?=(?:pub )?[\w-]+ : )", text, flags=re.M)
    return "".join(it for it in parts if (re.match(r"(?:pub )?([\w-]+) : ", it) or [None, None])[1] not in answers)
