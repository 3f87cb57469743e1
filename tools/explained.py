#!/usr/bin/env python3
"""Compares the examples of `kyoto-link explain` with the documents.

    explained.py [--write]

The text of a topic has the rows about it from the tables in PROTOCOL.md and FORMATS.md, without their markup. It must
be the same as `output` in the topic's folder of examples/explain, and the file `word` there must have the topic's name.
A line is printed for each file that differs, and the exit status is 1 if there is one. With --write the script writes
these files first.
"""
import argparse
import pathlib
import re
import sys
import textwrap

TOP = pathlib.Path(__file__).resolve().parent.parent
DOCS = TOP / "docs"
EXAMPLES = TOP / "examples/explain"
WIDTH = 100


def rows_of(document):
    """Yields each row of a document's tables: the heading above it, the table's columns, and the cells."""
    section, columns = "", None
    for line in (DOCS / document).read_text().splitlines():
        if line.startswith("#"):
            section = line.lstrip("# ")
        if not line.startswith("|"):
            columns = None
            continue
        cells = [cell.strip() for cell in line.removeprefix("|").removesuffix("|").split(" | ")]
        if columns is None:
            columns = cells
        elif not line.startswith("|---"):
            yield section, columns, cells


def plain(cell):
    return cell.replace("`", "")


def codes_in(cell):
    return re.findall("`([^`]*)`", cell)


def named_by(fault):
    """Returns the topic of a fault, as `order` of `kyoto-link: line 2: order`, or `keys` of `kyoto-link: --keys: read
    failed`."""
    word = re.sub(r"^(kyoto-link: )?(line \d+: |store NZ: |fault |--)?", "", fault).split()[0].removesuffix(":")
    return {"out": "memory", "no": "node", "the": "scheme", "not": "not-carried"}.get(word, word)


def has_own_table(name, topics):
    """Returns whether the topic is a word of a scheme's or of a store's faults, which have tables of their own."""
    return any(part.startswith(f"{name}: a fault of a s") for part in topics.get(name, []))


def kind_of(code, order):
    """Returns the node and the input to which a code belongs."""
    if order is not None:
        return f"a refusal of {order}".replace(", ", " or ").replace("of ack", "of an ack")
    if code < 200:
        return "a refusal of a message"
    return "a finding of the log (Terminated)" if code < 300 else "a finding of the acquirer (Rejected)"


def parts_of(section, columns, cells, topics):
    """Yields the topics of a row, each with its kind and the row's paragraphs. `topics` are those of the rows before
    it."""
    row, first = dict(zip(columns, cells)), cells[0]
    if section == "Refusals by number":
        order = plain(row["Order"]) if "Order" in row else None
        yield first, kind_of(int(first), order), [f"Cause: {row['Cause']}"]
    elif columns == ["Old", "Input", "New", "Effect"]:
        move = f"{section}, from {first} by {row['Input']}: {row['Effect']}"
        yield row["New"], "a status of a transaction, reached by these moves", [move]
    elif columns == ["Word", "Cause"]:
        yield plain(first), "a fault of a scheme", [f"Cause: {row['Cause']}"]
    elif columns == ["Word", "When"]:
        when = f"When ({first})" if " " in first else "When"
        yield named_by(plain(first)), "a fault of a store", [f"{when}: {row['When']}"]
    elif section == "The report" and columns == ["Line", "When"]:
        outcome = plain(first).split(maxsplit=1)[1]
        name = re.sub(r" \d+$", "", outcome).replace(" ", "-")
        yield name, f"an outcome in a report ({outcome})", [f"When: {row['When']}"]
    elif columns == ["Line", "Meaning"]:
        for outcome in (code.removeprefix("N ") for code in codes_in(first)):
            for name in {outcome.split()[0], outcome.replace(" ", "-")} & topics.keys():
                yield name, f"an outcome in a report of a run ({outcome})", [f"Meaning: {row['Meaning']}"]
    elif columns == ["Outcome", "When"]:
        for outcome in (code.removeprefix("N ") for code in codes_in(first)):
            if outcome.startswith("fault ") or outcome.split()[0] not in {*topics, "status", "not"}:
                yield named_by(outcome), f"an outcome at a node ({outcome})", [f"When: {row['When']}"]
    elif columns == ["Lines", "As in"]:
        yield plain(row["As in"]).split()[0], f"a line of a table ({plain(row['As in'])})", [f"Meaning: {first}"]
    elif columns == ["Word in a table", "Meaning"]:
        yield plain(first), "a word in a table", [f"Meaning: {row['Meaning']}"]
    elif columns == ["Line", "Status", "When"]:
        line = codes_in(first)[0]
        if not has_own_table(named_by(line), topics):
            yield named_by(line), f"a fault ({line}), with status {row['Status']}", [f"When: {row['When']}"]
    elif columns == ["Line", "Causes", "What to do"]:
        causes = [f"Causes ({first}): {row['Causes']}", f"What to do: {row['What to do']}"]
        for name in {named_by(code) for code in codes_in(first)} & topics.keys():
            yield name, None, causes if row["What to do"] else causes[:1]


def texts_of_documents():
    """Returns the text of each topic by its name."""
    topics = {}
    for document in ("PROTOCOL.md", "FORMATS.md"):
        for row in rows_of(document):
            for name, kind, paragraphs in parts_of(*row, topics.copy()):
                text = topics.setdefault(name, [])
                if kind and f"{name}: {kind}" not in text:
                    text.append(f"{name}: {kind}")
                text += map(plain, paragraphs)
    wrap = textwrap.TextWrapper(WIDTH, break_on_hyphens=False)
    return {name: "".join(f"{wrap.fill(part)}\n" for part in text) for name, text in topics.items()}


def main():
    parser = argparse.ArgumentParser(description=__doc__.splitlines()[0])
    parser.add_argument("--write", action="store_true", help="write the files of the examples first")
    writes = parser.parse_args().write
    texts = texts_of_documents()
    examples = {folder.name for folder in EXAMPLES.iterdir() if not (folder / "error").exists()}
    status = 0
    for name in sorted(examples | texts.keys()):
        for file, text in (("word", f"{name}\n"), ("output", texts.get(name))):
            path = EXAMPLES / name / file
            if writes and text:
                path.parent.mkdir(exist_ok=True)
                path.write_text(text)
            if not path.exists() or path.read_text() != text:
                print(f"{name}: `{file}` differs from the documents")
                status = 1
    sys.exit(status)


if __name__ == "__main__":
    main()
