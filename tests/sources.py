"""What the tests read of the sources: functions with their contracts, must-fail edits, and what an .antt file declares.

Nothing here knows the project; every reader takes a text and answers what stands in it, with the lines where it stands.
"""
import collections
import functools
import re


class Unread(Exception):
    """A source that is not of the form that is read here."""


def squeezed(text):
    """A text with each run of white space as one space."""
    return " ".join(text.split())


def line_of(text, place):
    return text.count("\n", 0, place) + 1


# ---- Rattle

# A clause of a contract: `requires` or `ensures`, what it says, and its place in the text. Its own name is no part of what it says.
Clause = collections.namedtuple("Clause", "word says start end")


class Function(collections.namedtuple("Function", "name owner public parameters result clauses first last opens")):
    """A function. Its owner is the type or the trait whose method it is, or the two in one word where it is a trait's for a type."""

    @property
    def path(self):
        """Its name below its crate or its module, as a check prints it."""
        return f"{self.owner}::{self.name}" if self.owner else self.name


HEAD = re.compile(
    r"((?:#\[[^\]]*\]\s*)*)"  # attributes
    r'((?:pub(?:\([^)]*\))?\s+)?(?:(?:const|unsafe)\s+)*(?:extern\s*"[^"]*"\s+)?)'
    r"\bfn\s+(\w+)\s*(?:<(?:[^(){}]|\([^()]*\))*?>)?\s*\(")
OWNER = re.compile(r"(?m)^(pub(?:\([^)]*\))?\s+)?(?:impl\b\s*(?:<[^{>]*>)?\s*([^{]+?)|trait\s+(\w+)[^{]*?)\s*\{")
QUOTED = re.compile(r"""//[^\n]*|/\*.*?\*/|"(?:\\.|[^"\\])*"|\bb'(?:\\.[^']*|[^'\\\n])'""", re.S)
BRACKET = re.compile(r"[()\[\]{}]")
CLAUSE = re.compile(r"\s*(requires|ensures)\b\s*[\w-]*\s*\{")


def bare(text):
    """The same text at the same places, without its comments, bytes in quotes and what stands in strings."""
    def blank(found):
        if found.group().startswith("/*") and "/*" in found.group()[2:]:
            raise Unread(f"line {line_of(text, found.start())}: a comment in a comment")
        kept = '"' if found.group().startswith('"') else ""
        return kept + re.sub(r"[^\n]", " ", found.group()[len(kept):len(found.group()) - len(kept)]) + kept
    return QUOTED.sub(blank, text)


def closed(text, opens):
    """The place after the bracket that closes the one at a place."""
    depth = 0
    for found in BRACKET.finditer(text, opens):
        depth += 1 if found.group() in "([{" else -1
        if depth == 0:
            return found.end()
    raise Unread(f"line {line_of(text, opens)}: a bracket is not closed")


def parts(text):
    """A text cut at the commas outside its brackets."""
    found, depth = [""], 0
    for letter in text:
        depth += (letter in "([{<") - (letter in ")]}>")
        if letter == "," and depth == 0:
            found.append("")
        else:
            found[-1] += letter
    return [part.strip() for part in found if part.strip()]


def parameter(part):
    """The name and the type of a parameter."""
    if re.fullmatch(r"&?\s*('\w+\s+)?(mut\s+)?self", part):
        return "self", part
    name, _, kind = part.partition(":")
    return name.replace("mut ", "").strip(), kind.strip()


def result_ends(text, place):
    """Where the result's type ends: at the contract or at the body."""
    while place < len(text):
        if text[place] in "{;" or re.match(r"\b(requires|ensures)\b", text[place:place + 9]):
            return place
        place = closed(text, place) if text[place] in "([" else place + 1
    raise Unread("a function has no body")


def clause(text, found):
    """The clause that was found, read from its braces."""
    end = closed(text, found.end() - 1)
    return Clause(found.group(1), squeezed(text[found.end():end - 1]), found.start(), end)


def one_word(kinds):
    """The name of a type, or of a trait with what it is made for, in the one word that a check prints."""
    return "".join(word[0].upper() + word[1:] for word in re.findall(r"[A-Za-z]\w*", re.sub(r"'\w+", "", kinds)))


def owners(text):
    """What has methods in a source: its name, whether these are public with it, and where it begins and ends."""
    for found in OWNER.finditer(text):
        of_impl, trait = found[2], found[3]
        made, _, kind = of_impl.rpartition(" for ") if of_impl else ("", "", trait)
        own = one_word(re.sub(r"<.*", "", kind, flags=re.S)) + one_word(made)
        yield own, bool(trait and found[1]), found.start(), closed(text, found.end() - 1)


def owner_of(place, every):
    return next(((own, public) for own, public, first, last in every if first < place < last), ("", False))


def function(text, found, every):
    """The function whose head was found."""
    ends = closed(text, found.end() - 1)
    place = result_ends(text, ends)
    result = squeezed(text[ends:place].replace("->", " "))
    clauses = []
    while CLAUSE.match(text, place):
        clauses.append(clause(text, CLAUSE.match(text, place)))
        place = clauses[-1].end
    own, by_owner = owner_of(found.start(), every)
    opens = re.compile(r"[{;]").search(text, place)
    if not opens or text[place:opens.start()].strip() or opens.group() == ";" and not own:
        raise Unread(f"line {line_of(text, found.start())}: {found.group(3)} is not read: something stands before its body")
    last = opens.start() if opens.group() == ";" else closed(text, opens.start())
    public = by_owner or re.search(r"\bpub\s", found.group(2)) is not None or "extern" in found.group(2) or "no_mangle" in found.group(1)
    parameters = [parameter(part) for part in parts(text[found.end():ends - 1])]
    lines = line_of(text, found.start()), line_of(text, last)
    return Function(found.group(3), own, public, parameters, result, clauses, *lines, place)


@functools.lru_cache(maxsize=None)
def functions(text):
    """The functions of a source, in its order."""
    text = bare(text)
    every, heads = list(owners(text)), list(HEAD.finditer(text))
    if len(heads) != len(re.findall(r"\bfn\s+\w+", text)):
        raise Unread("a function's head is not read")
    return [function(text, found, every) for found in heads]


def uses(clause):
    """A clause speaks of the function's result, and binds no other one."""
    bound = re.search(r"λ[^.]*(?<![\w'.-])result(?![\w'-])[^.]*\.|\(result\b[^():]*:", clause.says)
    return not bound and re.search(r"(?<![\w'.-])result(?![\w'-])", clause.says) is not None


def names_new(clause, name):
    """A clause speaks of what a parameter holds when the function returns."""
    return re.search(rf"(?<![\w'.-]){re.escape(name)}\.new(?![\w'-])", clause.says) is not None


# ---- must-fail edits

Step = collections.namedtuple("Step", "wrong file old new")
# The goals that a function's result, or the start or the turn of one of its loops, is proved by.
RESULT = re.compile(r"(?:returns|loop(?:-\S+)?-(?:init|preserved))(?:-\S+)?")
# A proof that names something that the code does not have.
UNFIT = re.compile(r"has no field|that can be named from here|was not admitted|is not in scope")
ERROR = re.compile(r"(?:\./)?(proofs/\S+/[^/]+\.antt):\d+:\d+: error: (?:`([^`]+)`: )?")
NOTE = re.compile(r"note: (?:\./)?(src/\S+):(\d+):\d+: it is not proved that .*? \(`([^`]+)`\)")


@functools.lru_cache(maxsize=None)
def steps(text):
    """The replacements of an edit, read as rt reads them, each with the wrong program that it belongs to: a line `wrong: NAME`, which
    rt passes over, begins one. An edit without such a line is one wrong program, without a name here."""
    wrong = file = old = ""
    found = []
    for line in text.splitlines():
        if line.startswith("wrong: "):
            wrong = line[7:]
        elif line.startswith("file: "):
            file = line[6:]
        elif line.startswith("old: "):
            old = line[5:]
        elif line.startswith("new:"):
            found.append(Step(wrong, file, old, line[5:] if line.startswith("new: ") else line[4:]))
    return found


@functools.lru_cache(maxsize=None)
def changed(edit, file, text):
    """The lines of a file that an edit changes, each with its wrong program. No replacement makes a line more or less."""
    lines = []
    for step in [step for step in steps(edit) if step.file == file]:
        if not step.old or text.count(step.old) != 1:
            raise Unread(f"its old text stands {text.count(step.old)} times in {file}: {step.old.strip()}")
        lines.append((step.wrong, line_of(text, text.index(step.old))))
        text = text.replace(step.old, step.new)
    return lines


@functools.lru_cache(maxsize=None)
def citing(text):
    """The names that a proof file declares, each with the words of its declaration."""
    found = collections.defaultdict(set)

    def read(lines):
        for block in blocks(lines):
            words = plain(joined(block))[0].split()
            if words[:1] == ["module"]:
                read(headed(block)[1])
            elif words and words[0] != "use":
                found[words[0]].update(re.findall(r"[^\s(){}.;,\[\]]+", joined(block)))
    read(list(lines_of(text)))
    return dict(found)


def rests_on(name, proofs):
    """The names of some proof files that a declaration cites, by itself or through others; its own among them."""
    declared, found, left = {}, set(), [name]
    for text in proofs:
        for each, words in citing(text).items():
            declared.setdefault(each, set()).update(words)
    while left:
        each = left.pop()
        if each not in found and each in declared:
            found.add(each)
            left += declared[each]
    return found


def is_result(answer, name):
    """Whether an answer is of a goal that proves a function's result or one of its loops. In a cycle of calls it has the function's name first."""
    for front in f"{name}-", f"{name.replace('_', '-')}-":
        answer = answer.removeprefix(front)
    return RESULT.fullmatch(answer) is not None


@functools.lru_cache(maxsize=None)
def unproved_in(log, file, path, first, last, own):
    """The lines of a log at which the result of a function is not proved, whose lines and whose own proof files these are."""
    if not re.search(rf"(?m)^fn (?:[a-z]\w*::)+{path}: (?:not proved|no proof)", log):
        return ()
    name = path.rpartition("::")[2]
    paths, texts = {path for path, _ in own}, [text for _, text in own]
    answers = {each for text in texts for each in citing(text) if is_result(each, name)}
    below = set().union(*(rests_on(each, texts) for each in answers))
    lines, found = log.splitlines(), []
    unfit = any(ERROR.match(line) and ERROR.match(line)[1] in paths and UNFIT.search(line) for line in lines)
    for line in lines:
        error, note = ERROR.match(line), NOTE.match(line)
        if error and error[1] in paths and error[2] and not UNFIT.search(line):
            found += [line] if is_result(error[2], name) or error[2] in below else []
        elif note and not unfit and note[1] == file and first <= int(note[2]) <= last:
            found += [line] if is_result(note[3], name) else []
    return tuple(found)


def unproved(log, file, function, files):
    """The lines of a log at which a function's own result, or the start or the turn of one of its loops, is not proved: an error of its
    answer or of what the answer rests on in the function's own proof files, or a note that no answer was found. `files` are the crate's proof
    files by their paths. A proof that does not fit does not count, and no note does where one of the function's own files does not fit."""
    front = re.compile(rf"proofs/(?:[a-z]\w*/)*{function.owner and function.owner + '/'}\+?{function.name}/[^/]+\.antt")
    own = tuple((path, text) for path, text in sorted(files.items()) if front.fullmatch(path))
    return unproved_in(log, file, function.path, function.first, function.last, own)


# ---- antt

TAKES = re.compile(r"(?m)^(?:ghost )?use (\S+)\.\{([^}]*)\}")


@functools.lru_cache(maxsize=None)
def taken(text):
    """The names that a source, of Rattle or of antt, takes from other modules: name, module."""
    return [(name.strip(), module) for module, names in TAKES.findall(text) for name in names.split(",")]


# What a file declares: `record`, `law` (a public name that is proved, and its type), `type` (that of a public name that is defined)
# or `definition` (what a name is said to be), with the text that tests/claims.txt has of it, its lines, and for a record the lines of
# each field.
Declaration = collections.namedtuple("Declaration", "kind name says first last fields")
WORDS = ("pub", "abbrev", "unfoldable")


def lines_of(text):
    """The lines that are no comments: number, depth, and what stands there."""
    text = re.sub(r"\{-.*?-\}", lambda found: re.sub(r"[^\n]", " ", found.group()), text, flags=re.S)
    for number, line in enumerate(text.splitlines(), 1):
        line = re.sub(r"(^|\s)--.*$", "", line).rstrip()
        if line.strip():
            yield number, len(line) - len(line.lstrip()), line.strip()


def blocks(lines):
    """Each line of the least depth, with the deeper lines below it and the bracket that closes them."""
    found = []
    for line in lines:
        if found and (line[1] > found[-1][0][1] or line[2][0] in ")}]"):
            found[-1].append(line)
        else:
            found.append([line])
    return found


def joined(lines):
    return squeezed(" ".join(line[2] for line in lines))


def headed(block):
    """The lines of a record's or a module's head, up to its `where`, and those below."""
    size = next((size for size in range(1, len(block) + 1) if block[size - 1][2].split()[-1] == "where"), len(block))
    return block[:size], block[size:]


def plain(text):
    """A declaration without the words in front of its name, and these."""
    words = text.split()
    front = [word for word in words[:3] if word in WORDS]
    return " ".join(words[len(front):]), front


def record(block, given):
    """A record: its parameters after those of the modules around it, and its fields."""
    head, below = headed(block)
    name, _, rest = plain(joined(head))[0].removeprefix("record ").removesuffix("where").strip().partition(" ")
    rest = rest.rpartition(": Type")[0]
    fields = blocks(below)
    says = " ".join([name, given, rest, "where"] + [plain(joined(field))[0] for field in fields])
    return Declaration("record", name, squeezed(says), block[0][0], block[-1][0], [(field[0][0], field[-1][0]) for field in fields])


def declared(lines, given):
    """The declarations of some lines; `given` are the parameters of the modules around them."""
    named = set()
    for block in blocks(lines):
        text, front = plain(joined(block))
        words = text.split()
        first, last = block[0][0], block[-1][0]
        if words[0] == "module":
            head, below = headed(block)
            yield from declared(below, squeezed(given + " " + " ".join(joined(head).split()[2:-1])))
        elif words[0] == "record":
            yield record(block, given)
        elif words[1:2] == [":"]:
            named.add(words[0])
            if "pub" in front:
                kind = "law" if front == ["pub"] else "type"
                yield Declaration(kind, words[0], squeezed(f"{words[0]} {given} {text[len(words[0]):]}"), first, last, [])
        elif words[0] in named and "=" in words:
            yield Declaration("definition", words[0], text, first, last, [])


@functools.lru_cache(maxsize=None)
def declarations(text):
    """What an .antt file declares. A definition of several lines, one for each of its cases, is one declaration."""
    found = []
    for one in declared(list(lines_of(text)), ""):
        before = found[-1] if found else one
        if one.kind == before.kind == "definition" and one.name == before.name and one is not before:
            found[-1] = before._replace(says=f"{before.says} {one.says}", last=one.last)
        else:
            found.append(one)
    return found
