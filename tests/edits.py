"""The must-fail edits of the crates, each with its wrong programs and their logs, for tests/edit_logs, tests/must_fail_reasons and tests/entries."""
import collections
import functools
import glob
import os
import re

import sources

ROOT = os.path.dirname(os.path.dirname(os.path.abspath(__file__)))
LOGS = "target/must-fail"

# An edit: its crate, its name, its text, the sources and the proof files of its crate by their paths there, and the logs of its wrong programs.
Edit = collections.namedtuple("Edit", "crate label text files proofs logs")


def text_of(path):
    if not os.path.exists(path):
        return ""
    with open(path, encoding="utf-8", errors="replace") as file:
        return file.read()


@functools.lru_cache(maxsize=None)
def below(folder, *kinds):
    """The texts of some files of a crate, by their paths there."""
    found = [path for kind in kinds for path in sorted(glob.glob(os.path.join(folder, kind), recursive=True))]
    return {os.path.relpath(path, folder): text_of(path) for path in found if os.path.isfile(path)}


def log_path(crate, label, wrong):
    return f"{LOGS}/{crate}/{label}/{wrong or label}.log"


def edits():
    for path in sorted(glob.glob(os.path.join(ROOT, "crates/*/must-fail/*.edit"))):
        _, crate, _, name = os.path.relpath(path, ROOT).split("/")
        text, label = text_of(path), name.removesuffix(".edit")
        folder = os.path.join(ROOT, "crates", crate)
        files = {file: text_of(os.path.join(folder, file)) for file in {step.file for step in sources.steps(text)}}
        logs = {wrong or label: text_of(os.path.join(ROOT, log_path(crate, label, wrong))) for wrong in dict.fromkeys(step.wrong for step in sources.steps(text))}
        yield Edit(crate, label, text, files, below(folder, "proofs/**/*.antt"), logs)


def title(edit):
    return f"crates/{edit.crate}/must-fail/{edit.label}.edit"


def of_definition(edit):
    return any(file.startswith("specs/") for file in edit.files)


def wrongs(edit):
    """The functions that each wrong program changes: (file, function) by its name, which is the edit's where it has none. One that
    shares its file with others changes only their bodies."""
    found = collections.defaultdict(list)
    for file, text in edit.files.items():
        for wrong, line in sources.changed(edit.text, file, text):
            inside = [one for one in sources.functions(text)
                      if (sources.line_of(text, one.opens) + 1 if wrong else one.first) <= line <= one.last]
            if not inside:
                raise sources.Unread(f"{wrong or edit.label}: line {line} of {file} is in no function, or in a contract and not alone")
            if (file, inside[0]) not in found[wrong or edit.label]:
                found[wrong or edit.label].append((file, inside[0]))
    return found


def checked_as(edit, file, function):
    """The name by which a check prints a function of a file: its crate, the module of its type or else its own, its type and its own."""
    kind = re.compile(rf"(?m)^(?:pub )?(?:struct|enum|trait) {function.owner}\b") if function.owner else None
    others = below(os.path.join(ROOT, "crates", edit.crate), "src/**/*.rt")
    file = next((path for path, text in others.items() if kind and kind.search(text)), file)
    modules = [part for part in file.removeprefix("src/").removesuffix(".rt").split("/") if part not in ("lib", "main", "mod")]
    return "::".join([edit.crate, *modules, function.path])


def edited(edit, wrong):
    """The files that a wrong program changes, as it has them. It stands without the others that share its file."""
    texts = {}
    for step in sources.steps(edit.text):
        if (step.wrong or edit.label) == wrong:
            text = texts.get(step.file, edit.files[step.file])
            if not step.old or text.count(step.old) != 1:
                raise sources.Unread(f"{wrong}: its old text stands {text.count(step.old)} times in {step.file}: {step.old.strip()}")
            texts[step.file] = text.replace(step.old, step.new)
    return texts
