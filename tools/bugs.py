"""The bugs that can be planted in a source file, each a line or a few lines that are written another way.

Only what runs is changed: the bodies of functions, the values of constants and the numbers of cases. Clauses, ghost items,
comments, attributes and tests are not touched."""
import collections
import re

# A bug: the function that it stands in, that function's first and last line, the first line that the bug changes (all counted
# from 1), of which kind it is, and what that line and those after it become.
Bug = collections.namedtuple("Bug", "function first last line kind news")

# Where code stands: the name of a function, and its header and its body, as places in the text.
Span = collections.namedtuple("Span", "name header begin end")


def closing(text, at):
    """The place after the brace that closes the one at this place."""
    depth = 0
    for place in range(at, len(text)):
        depth += {"{": 1, "}": -1}.get(text[place], 0)
        if depth == 0:
            return place + 1
    raise ValueError("a brace is not closed")


def blanked(text, begin, end):
    """The text with spaces for what stands there, its line ends kept."""
    return text[:begin] + re.sub(r"[^\n]", " ", text[begin:end]) + text[end:]


def test_files(text):
    """The names of the modules of a file that hold its tests and stand in files of their own."""
    return re.findall(r"^#\[cfg\(test\)\]\n(?:pub )?mod (\w+);", text, re.M)


def code_of(text):
    """The text with spaces in place of comments, tests, attributes, imports, ghost items and clauses."""
    for found in list(re.finditer(r"//[^\n]*", text)):
        text = blanked(text, *found.span())
    while found := re.search(r"^#\[cfg\(test\)\]\n(pub )?mod \w+ \{", text, re.M):
        text = blanked(text, found.start(), closing(bare(text), found.end() - 1))
    for pattern in (r"#!?\[[^\n]*\]$", r"^\s*(pub )?(ghost )?use [^;]*;", r"^\s*(pub )?mod \w+;"):
        for found in list(re.finditer(pattern, text, re.M)):
            text = blanked(text, *found.span())
    while found := re.search(r"\bghost \w+( =|:) \{|\bby \{|\b(requires|ensures)( \w+)? \{", text):
        text = blanked(text, found.start(), closing(text, found.end() - 1))
    return text


def bare(code):
    """The code with spaces in place of the insides of strings and of characters."""
    for found in list(re.finditer(r'"[^"\n]*"|b?\'[^\'\n]\'', code)):
        code = blanked(code, found.start() + 1, found.end() - 1)
    return code


def spans(code):
    """The functions that have a body, by the type that they belong to and their name."""
    code = bare(code)
    owners = [
        (found.start(), closing(code, found.end() - 1), found.group(2))
        for found in re.finditer(r"^(?:impl|trait)(<[^{]*?>)? (?:.*? for )?(\w+)[^{;]*\{", code, re.M)
    ]
    found = []
    for match in re.finditer(r"\bfn (\w+)", code):
        stop = re.compile(r"[{;](?![^\[(]*[\])])").search(code, match.end())
        if stop and stop.group() == "{":
            owner = next((f"{name}::" for begin, end, name in owners if begin < match.start() < end), "")
            found.append(Span(owner + match.group(1), match.start(), stop.start(), closing(code, stop.start())))
    return found


class Types:
    """Which names of the sources may stand for one another, since they are of one type."""

    def __init__(self, texts):
        self.fields, self.getters, self.cases, self.parameters = [], [], [], {}
        for text in texts:
            code = code_of(text)
            for name, given in re.findall(r"\bfn (\w+)(?:<[^(]*>)?\(([^)]*)\)", code):
                kinds = [it.split(": ")[1].strip() for it in given.split(",") if ": " in it]
                self.parameters[name] = kinds if self.parameters.get(name, kinds) == kinds else []
            for match in re.finditer(r"\bstruct \w+[^{;]*\{", code):
                body = code[match.end() : closing(code, match.end() - 1)]
                self.fields.append(dict(re.findall(r"(\w+): ([^,\n]+),", body)))
            for match in re.finditer(r"\benum (\w+) \{", code):
                body = code[match.end() : closing(code, match.end() - 1)]
                cases = re.findall(r"^\s+(\w+)(\([^)]*\)| \{[^}]*\})?(?: = \d+)?,", body, re.M)
                self.cases.append((match.group(1), cases))
            for match in re.finditer(r"^impl [^{]*\{", code, re.M):
                body = code[match.end() : closing(code, match.end() - 1)]
                self.getters.append(dict(re.findall(r"fn (\w+)\(&self\) -> (\w+)", body)))

    def others(self, table, name):
        """The names of the same type in the one table that has the name."""
        tables = [it for it in table if name in it]
        return [it for it in tables[0] if it != name and tables[0][it] == tables[0][name]] if len(tables) == 1 else []

    def other_cases(self, owner, name):
        """The two cases of an enum that follow this one and are made from the same things."""
        cases = next((dict(cases) for it, cases in self.cases if it == owner), {})
        alike = [it for it in cases if cases[it] == cases[name]] if name in cases else []
        after = alike[alike.index(name) + 1 :] + alike[: alike.index(name)] if alike else []
        return after[:2]

    def may_swap(self, function, at):
        """Whether two neighbouring arguments of a function are of one type, as far as the sources tell."""
        kinds = self.parameters.get(function, [])
        return len(kinds) <= at + 1 or kinds[at] == kinds[at + 1]


def split_list(text):
    """The parts of a text between its commas, those within brackets left out, each with its place."""
    depth, begin, parts = 0, 0, []
    for place, letter in enumerate(text):
        depth += (letter in "([{") - (letter in ")]}")
        if letter == "," and depth == 0:
            parts.append((begin, place))
            begin = place + 1
    return parts + [(begin, len(text))]


OPERAND = r"[*&!]?[\w.]+(?:::\w+)*(?:\([^()]*\)|\[\w+\])*(?:\.\w+\(\)|\.\w+)*"
COMPARED = {"<": ["<=", ">"], "<=": ["<", ">="], ">": [">=", "<"], ">=": [">", "<="], "==": ["!="], "!=": ["=="]}
COUNTED = {"+": ["-"], "-": ["+"], "*": ["+"], "%": ["/"], "/": ["%"], ">>": ["<<"], "<<": [">>"], "+=": ["-="], "|=": ["=", "^="]}


def others_than(number):
    """The numbers to put for one, as it is written, each with its kind: those beside it, 0, its half and its double."""
    digits = number.replace("_", "")
    base = 16 if digits.startswith("0x") else 10
    value = re.match(r"0x[0-9a-fA-F]+|\d+", digits).group()
    kind, was = digits[len(value) :], int(value, base)
    tried = [was]
    for other, by in ((was + 1, "by one"), (was - 1, "by one"), (0, "far off"), (was // 2, "far off"), (was * 2, "far off")):
        if other >= 0 and other not in tried:
            tried.append(other)
            yield f"constant {by}", (f"{other:#x}" if base == 16 else str(other)) + kind


def put(line, begin, end, new):
    """The line with something else from one place to another."""
    return line[:begin] + new + line[end:]


def other_signs(line, shape):
    """Another comparison or operator, operands changed over, and one connective for the other."""
    for sign, table, kind in ((it, *pair) for pair in ((COMPARED, "another comparison"), (COUNTED, "another operator")) for it in pair[0]):
        for found in re.finditer(rf" {re.escape(sign)} ", shape):
            for other in table[sign]:
                yield kind, put(line, found.start() + 1, found.end() - 1, other)
    for found in re.finditer(rf"({OPERAND}) (<|<=|>|>=|-|%|<<|>>) ({OPERAND})", shape):
        first, sign, second = (line[slice(*found.span(it))] for it in (1, 2, 3))
        yield "swapped operands", put(line, *found.span(), f"{second} {sign} {first}")
    for sign, other in (("&&", "||"), ("||", "&&")):
        for found in re.finditer(rf"(?<=[\w)]) {re.escape(sign)} |^\s*{re.escape(sign)} ", shape):
            yield "and for or", put(line, found.start(), found.end(), found.group().replace(sign, other))


NUMBER = r"(?<![\w.'])(0x[0-9a-f]+|\d[\d_]*)(?![\w.]|\.\.)|(?<![\w'])\d[\d_]*(?=\.\.)|(?<=\.\.)=?(?:0x[0-9a-f]+|\d[\d_]*)|\b\d+u\d+\b"


def other_constants(line, shape):
    """Another number, letter or truth value."""
    for found in re.finditer(NUMBER, shape):
        skip = found.group().startswith("=")
        for kind, other in others_than(found.group().lstrip("=")):
            yield kind, put(line, found.start() + skip, found.end(), other)
    for found in re.finditer(r"b?'([^'\\])'", line):
        yield "constant by one", put(line, found.start(1), found.end(1), chr(ord(found.group(1)) + 1))
    for found in re.finditer(r'"([^"\\]+)"', line):
        at = next((it for it, letter in enumerate(found.group(1)) if letter.isalnum() and "{" not in found.group(1)[: it + 1]), None)
        if at is not None:
            at += found.start(1)
            yield "constant by one", put(line, at, at + 1, chr(ord(line[at]) + 1))
    for found in re.finditer(r"\b(true|false)\b", shape):
        yield "constant by one", put(line, *found.span(), "false" if found.group() == "true" else "true")


def missed_cases(line, shape):
    """A dropped not, a condition that always or never holds, an arm or a `?` left out."""
    for found in re.finditer(r"!(?=[\w(])", shape):
        if not re.search(r"\w$", shape[: found.start()]):
            yield "a dropped not", put(line, *found.span(), "")
    for found in re.finditer(r"\bif (?!let )([^{]*[^{ ]) \{", shape):
        yield "a missed case", put(line, *found.span(1), "false")
        yield "a missed case", put(line, *found.span(1), "true")
    for found in re.finditer(r" if (?!let )[^{]*?(?= =>)", shape):
        yield "a missed case", put(line, *found.span(), "")
    if re.match(r"\s+[^=]*=> .*,$|\s*&& .*$", shape):
        yield "a missed case", ""
    for found in re.finditer(r"\b\w+\((\w+)\)\?", shape):
        yield "a missed case", put(line, *found.span(), found.group(1))


def other_places(line, shape):
    """An instant or a number of CPUs by one, another place of an array, and a loop that is one short."""
    for found in re.finditer(r"(?<=[(,] )?(?<![\w.])(age|t|n|cpus|instant|released)(?=[,)])", shape):
        yield "constant by one", put(line, *found.span(), f"{found.group()}.saturating_sub(1)")
    for found in re.finditer(r"(?<=\w\[)(i|j|at|place)(?=\])", shape):
        yield "another place", put(line, *found.span(), f"{found.group()} / 2")
    for found in re.finditer(r"(?<![\w.])0\.\.(?=\w)", shape):
        yield "a loop one short", put(line, *found.span(), "1..")
    for found in re.finditer(r"\.iter(_mut)?\(\)", shape):
        yield "a loop one short", put(line, *found.span(), f"[1..]{found.group()}")
    for found in re.finditer(r"(?<=members_of\()[\w.]+(?=\))", shape):
        yield "a loop one short", put(line, *found.span(), f"{found.group()} & 0xffff_fffe")
        yield "a loop one short", put(line, *found.span(), f"{found.group()} & 0x7fff_ffff")


def swapped_arguments(line, shape, types):
    """Neighbouring arguments of one type changed over."""
    for found in re.finditer(r"(?<=[\w>!])\(", shape):
        depth = 0
        for end in range(found.start(), len(shape)):
            depth += (shape[end] in "([{") - (shape[end] in ")]}")
            if depth == 0:
                break
        else:
            continue
        begin = found.end()
        parts = split_list(shape[begin:end])
        called = re.search(r"(\w+)$", shape[: found.start()])
        for at, ((a, b), (c, d)) in enumerate(zip(parts, parts[1:])):
            one, two = line[begin + a : begin + b].strip(), line[begin + c : begin + d].strip()
            if one != two and one and two and not (one + two).count('"') and (not called or types.may_swap(called.group(), at)):
                yield "swapped arguments", put(line, begin + a, begin + d, (" " if a else "") + f"{two}, {one}")


def others_of_the_type(line, shape, types, locals_):
    """Another field, question, case, variable or policy of the same type."""
    kind = "another of the type"
    for found in re.finditer(r"(?<=\.)(\w+)\b(?!\()", shape):
        for other in types.others(types.fields, found.group()):
            yield kind, put(line, *found.span(), other)
    for found in re.finditer(r"(?<=\.)(\w+)(?=\(\))", shape):
        for other in types.others(types.getters, found.group()):
            yield kind, put(line, *found.span(), other)
    for found in re.finditer(r"\b(\w+)::(\w+)", shape):
        for other in types.other_cases(*found.groups()):
            yield kind, put(line, *found.span(2), other)
    for found in re.finditer(r"(?<![\w.:'])(\w+)\b(?![\w(!:])", shape):
        for other in locals_.get(found.group(), []):
            if re.fullmatch(r"\s+\w+,", shape):
                yield kind, put(line, *found.span(), f"{found.group()}: {other}")
            yield kind, put(line, *found.span(), other)
    for found in re.finditer(r"(?<![\w.:])(Deadline|Rank)\b(?![:(])", shape):
        yield kind, put(line, *found.span(), "Rank" if found.group() == "Deadline" else "Deadline")


def in_line(line, types, locals_):
    """The other ways to write one line of code: each a kind and a line. What is no code is blank in the line."""
    shape = bare(line)
    yield from other_signs(line, shape)
    yield from other_constants(line, shape)
    yield from missed_cases(line, shape)
    yield from other_places(line, shape)
    yield from swapped_arguments(line, shape, types)
    yield from others_of_the_type(line, shape, types, locals_)


def locals_of(code, span):
    """For each name whose type the function tells, the others of that type."""
    head = bare(code[span.header : span.end])
    told = dict(re.findall(r"\b(\w+): ([^,{}=;\n]+?)(?=[,)=;]|\n)", head))
    named = collections.defaultdict(list)
    for name, kind in told.items():
        named[kind.strip()].append(name)
    return {name: [it for it in group if it != name] for group in named.values() for name in group}


def dropped(code, span):
    """The statements of a body that may be left out, as places."""
    shape = bare(code)
    for found in re.finditer(r"(?<=[;{}])(\s*)(?=\S)((?!let |\}|use |fn |const |return )[^;{}]*(?:\{[^{};]*\}[^;{}]*)*;)", shape[span.begin : span.end]):
        yield span.begin + found.start(2), span.begin + found.end(2)


def unwritten(lines):
    """The lines of a statement, left out; or where it gives a place a value, with that place's own."""
    given = re.match(r"(\s*)([\w.*\[\]:()]+) (=|\+=|\|=|-=|&=) ", lines[0])
    if not given:
        return [""] * len(lines)
    space, place, sign = given.groups()
    kept = {"=": f"{place} = {place};", "+=": f"{place} += 0;", "-=": f"{place} -= 0;", "|=": f"{place} |= 0;", "&=": f"{place} &= {place};"}
    return [space + kept[sign]] + [""] * (len(lines) - 1)


def swapped_arms(lines, first, last):
    """Pairs of neighbouring lines of a match that answer with each other's value."""
    arm = re.compile(r"^(\s+)([^=]*) => (.*),$")
    for at in range(first, last):
        one, two = arm.match(lines[at]), arm.match(lines[at + 1])
        if one and two and one.group(1) == two.group(1) and one.group(3) != two.group(3):
            yield at, [f"{one.group(1)}{one.group(2)} => {two.group(3)},", f"{two.group(1)}{two.group(2)} => {one.group(3)},"]


def in_tail(line, given, answer):
    """The other ways to write the last expression of a function with this type of an answer, whose parameters are given."""
    space, value = re.match(r"(\s*)(.*)", line).groups()
    if array := re.match(r"\[u8; (\w+)\]", answer):
        yield "another constant", f"{space}[0; {array.group(1)}]"
    if re.fullmatch(r"[ui]\d+|usize", answer):
        yield "constant by one", f"{space}({value}).saturating_sub(1)"
        yield "constant by one", f"{space}({value}).saturating_add(1)"
    if answer == "bool":
        yield "a dropped not", f"{space}!({value})"
    if answer.startswith("Option<") and value != "None":
        yield "a missed case", f"{space}None"
    if re.match(r"(\w+::)?Result<\(\)", answer) and value != "Ok(())":
        yield "a dropped write", f"{space}Ok(())"
    if answer.startswith("Result<") and answer.endswith(", Refusal>") and not value.startswith("Err("):
        yield "a missed case", f"{space}Err(Refusal::NotStarted)"
    if told := re.fullmatch(r"(Ok|Some)\((length|end|n)\)", value):
        yield "constant by one", f"{space}{told.group(1)}({told.group(2)}.saturating_sub(1))"
    for name, kind in given.items():
        for found in re.finditer(rf"(?<![\w.]){name}\b(?![\w:(])", value):
            new = {"&[u8]": f"&{name}[..{name}.len() / 2]", "Refusal": "Refusal::NoTasks"}.get(kind)
            new = f"{name}.saturating_sub(1)" if re.fullmatch(r"[ui]\d+|usize", kind) else new
            if new and value != name:
                yield "constant by one", f"{space}{value[: found.start()]}{new}{value[found.end() :]}"


def in_tails(code, lines, span, first, last):
    """The other ways to write what a function answers at its end, or an arm of a match there: the line, the kind and the line
    then."""
    answer = re.search(r"\) -> ([^{\n]+)", code[span.header : span.begin])
    if not answer:
        return
    kind_of_answer, code_lines = answer.group(1).strip(), code.split("\n")
    given = {name: kind.strip() for name, kind in re.findall(r"\b(\w+): ([^,)\n]+)", code[span.header : span.begin])}
    for at in range(first, last + 1):
        arm = re.match(r"(\s+(?:[^=]*=> )?)(Some\(.*\)|[^ {}]+?),?$", code_lines[at])
        if arm and code_lines[at].rstrip() == lines[at] and ("=>" in arm.group(1) or "=>" in code_lines[at - 1]):
            for kind, new in in_tail(arm.group(2), {}, kind_of_answer):
                yield at, kind, arm.group(1) + new + "," * ("=>" in arm.group(1))
    whole = re.search(r"[;{}]\s*$", bare("\n".join(code_lines[first : last - 1])))
    if last > first + 1 and whole and re.match(r"\s*[^\s});]", code_lines[last - 1]) and code_lines[last - 1].rstrip() == lines[last - 1]:
        for kind, new in in_tail(code_lines[last - 1], given, kind_of_answer):
            yield last - 1, kind, new


def in_body(code, lines, types, span, first, last):
    """The bugs of a function's body, which stands from one line to another: the line, the kind and the lines then."""
    locals_, code_lines = locals_of(code, span), code.split("\n")
    for at in range(first + (first < last), last + 1):
        line = code_lines[at]
        if first == last:
            line = " " * (span.begin - code.rfind("\n", 0, span.begin) - 1) + code[span.begin : span.end]
        if line.strip() and lines[at].rstrip() == line.rstrip():
            for kind, new in in_line(line, types, locals_):
                yield at, kind, [new]
    for begin, end in dropped(code, span):
        a, b = code.count("\n", 0, begin), code.count("\n", 0, end)
        if code_lines[a].strip().startswith(code[begin:end].split("\n")[0].strip()):
            yield a, "a dropped write", unwritten(code_lines[a : b + 1])
    for at, news in swapped_arms(code_lines, first, last):
        yield at, "a missed case", news
    for at, kind, new in in_tails(code, lines, span, first, last):
        yield at, kind, [new]


def bugs_of(text, types):
    """The bugs of a source file, in the order of their places."""
    code, lines = code_of(text), text.split("\n")
    found = []

    def add(function, first, last, at, kind, news):
        news = tuple(new.rstrip() for new in news)
        if news != tuple(lines[at : at + len(news)]) and all((at + 1, news) != (it.line, it.news) for it in found):
            found.append(Bug(function, first + 1, last + 1, at + 1, kind, news))

    for span in spans(code):
        head, first, last = (code.count("\n", 0, it) for it in (span.header, span.begin, span.end - 1))
        for at, kind, news in in_body(code, lines, types, span, first, last):
            add(span.name, head, last, at, kind, news)
    for at, line in enumerate(code.split("\n")):
        if named := re.match(r"\s*(?:pub )?const (\w+): [^=]+= ", line):
            for kind, new in in_line(line, types, {}):
                add(f"const {named.group(1)}", at, at, at, kind, [new])
        if case := re.match(r"(\s+(\w+) = )(\d+),$", line):
            add(f"case {case.group(2)}", at, at, at, "another constant", [f"{case.group(1)}{int(case.group(3)) + 100},"])
    return found


def marked(text):
    """The text with a comment at the end of each line that stands in the file more than once, or within another, so that each
    can be told by what it says."""
    lines = code_of(text).split("\n")

    def mark(at, line):
        twice = line.strip() and lines[at].strip() and lines[at].rstrip() == line and text.count(line) > 1
        return f"{line} // at {at + 1}." if twice else line

    return "\n".join(mark(at, line) for at, line in enumerate(text.split("\n")))


def edit_of(bug, path, text):
    """The bug as a must-fail edit of the marked text: its lines, or None where it changes nothing."""
    lines = text.split("\n")
    pairs = [(old, new) for old, new in zip(lines[bug.line - 1 :], bug.news) if old != new]
    if not pairs or any(not old.strip() or text.count(old) != 1 for old, _ in pairs):
        return None
    head = f"{bug.function}, line {bug.line}: {bug.kind}"
    return "\n".join([head, f"file: {path}"] + [it for old, new in pairs for it in (f"old: {old}", f"new: {new}")]) + "\n"
