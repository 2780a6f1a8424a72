#!/usr/bin/env python3
"""What a machine can see of the house: names, rows, files, what documents name, and phrases that are not plain English.

Use: names.py [--comments | --rows], anywhere in a checkout. Prints one line for each finding, with its place and what to do, and ends
with 1 if there is one. With --comments the phrases are looked for in the comments of crates/ too, which the gate does not ask for. With
--rows it prints only what ROWS, DEFAULTS, ARGUMENTS and PATHS would be today.

 types     Two crates declare a public type of one name, and docs/GLOSSARY.md has no line that names it in backticks and says why.
 rows      A row of a contract (of an `ensures` or a `requires`) passes 160 columns. ROWS allows a crate the rows that it still has;
           a number that is larger than what is there is a finding too, so that it only shrinks.
 defaults  A definition looks an element up with a value in case there is none (`get_or`). DEFAULTS allows a crate those that it still has.
 arguments A function has more than six arguments. ARGUMENTS allows a crate those that it still has.
 words     A source uses a word of RETIRED, which means something else in another crate.
 files     A source file passes 450 lines.
 edge      A proof is written by hand (a file `Proof.antt`), or a file or stream is written by another crate than `wire`.
 names     A document names a crate, a file, a type, a call or a clause that is not there.
 phrases   A document or a message has a phrase of FOREIGN.
 libraries A line of crates.txt names a library that no file of its crate mentions, or there are more paths through crates.txt than PATHS.
"""
import functools
import os
import re
import subprocess
import sys
from collections import defaultdict

COLUMNS, LINES = 160, 450
PROOF_LINES = 500  # a file of lemmas, which nobody reads from its beginning to its end
# Rows of contracts that are still too long, by crate. There is none, so add none.
ROWS = {}
# Definitions with `get_or`, and functions of more than six arguments, by crate. These numbers only shrink.
DEFAULTS = {"book_log": 3, "replay_player": 5, "report_book": 4, "serve_door": 2, "serve_end": 3, "session_runs": 1}
ARGUMENTS = {"book_log": 3, "book_sessions": 2, "gps_serve": 1}
MOST_ARGUMENTS = 6
# Paths that lead from the program down through crates.txt: so often rt reads a crate for one sum of the program's files. It only shrinks.
PATHS = {"gpsrelay": 43_000}
LOOSE = 1.1  # PATHS may be larger than what is there by this factor
# Words that these crates do not use in names, and what they say in their place: each word has another meaning somewhere else.
RETIRED = [
    (r"class_counts|gps_decode|gps_outside|gps_replay|gps_upstream|line_player|ubx_frame|library_tests", r"[Tt]urns?", "round; a turn is the book's"),
    (r"shm_\w+", r"[Tt]urns?", "position; a turn is the book's"),
]
DOCUMENTS = ["README.md", "docs/LIMITS.md", "docs/ARCHITECTURE.md", "docs/GLOSSARY.md", "docs/PROOF.md", "docs/ASSUMPTIONS.md"]
# Words in backticks that no source of this project has: programs and words of others.
ELSEWHERE = {"cgps", "chrony", "chronyd", "chrt", "gpsbabel", "gpsctl", "gpsd", "gpsdecode", "gpsmon", "gpspipe", "gpxlogger", "jq", "mandoc",
             "ntpd", "rt", "rustc", "socat", "stty", "systemctl", "systemd", "ubxtool", "xgps"}
FOREIGN = {
    r"want(?:s|ed|ing)? of memory|memory (?:was|is) (?:not )?wanting": "out of memory",
    r"let(?:s|ting)? go of": "closes, drops or frees",
    r"asks? for nothing that there is": "invalid command line",
    r"so many": "n, or 'the given number of'",
    r"tells? (?:its|their) content": "has modelled contents",
    r"a part of what was due was written": "the output is a prefix of the expected output",
    r"where (?:it is|they are) left out": "by default",
}
PHRASES = [(re.compile(rf"\b(?:{phrase})", re.I), plain) for phrase, plain in FOREIGN.items()]
SOURCES = (".rt", ".antt", ".edit", ".py", ".sh", ".c")
TYPE = re.compile(r"^\s*pub (?:struct|enum|union|trait) (\w+)")
CLAUSE = re.compile(r"^\s*(?:ghost )?(?:ensures|requires)\b")
PATH = re.compile(r"(?<![\w./-])(?:\.ci|bench|crates|docs|examples|samples|tests|tools)/[\w./-]*\w")
IN_CRATE = re.compile(r"(?:src|specs|proofs|must-fail)/[\w./-]*")
SOURCE = re.compile(r"crates/\w+/(?:src|specs|proofs)/")
SHOWN = re.compile(r"README\.md|CHANGELOG\.md|(?:docs|samples)/.*\.md|.*\.8|(?:bench|examples|tools)/.*|tests/(?!names\.py).*|crates/.*\.(?:rt|antt|edit)")
OTHER = re.compile(r"crates\.txt$|HANDLES$|(?:bench|examples|tools)/|tests/(?!names\.py)")


def read(name):
    with open(name, encoding="utf-8", errors="replace") as it:
        return it.read()


def rows_of(name):
    return list(enumerate(read(name).split("\n"), 1))


def crate_of(name):
    return name.split("/")[1]


def types(files):
    """Public types of one name in two crates."""
    declared = defaultdict(dict)
    for name in files:
        if re.fullmatch(r"crates/\w+/src/.*\.rt", name):
            for number, row in rows_of(name):
                if found := TYPE.match(row):
                    declared[found[1]].setdefault(crate_of(name), f"{name}:{number}")
    told = [row for _, row in rows_of("docs/GLOSSARY.md")] if os.path.exists("docs/GLOSSARY.md") else []
    for word, places in sorted(declared.items()):
        reasons = [row for row in told if f"`{word}`" in row and len(row.replace(f"`{word}`", "").split()) >= 5]
        if len(places) > 1 and not reasons:
            crate, place = list(places.items())[-1]
            others = ", ".join(it for it in places if it != crate)
            yield f"{place}: `{word}` is a public type of {others} too; rename one, or say in docs/GLOSSARY.md why both have it"


def contract_rows(name):
    """The numbered rows of a file that belong to an `ensures` or a `requires`."""
    depth, inside = 0, False
    for number, row in rows_of(name):
        inside = inside or bool(CLAUSE.match(row))
        if inside:
            yield number, row
            depth += row.count("{") - row.count("}")
            inside = depth > 0
            depth = max(depth, 0) if inside else 0


def long_rows(files):
    """Of each crate its rows of contracts that are too long."""
    found = defaultdict(list)
    for name in files:
        if re.fullmatch(r"crates/\w+/.*\.rt", name):
            found[crate_of(name)] += [f"{name}:{number}: {len(row)} columns" for number, row in contract_rows(name) if len(row) > COLUMNS]
    return found


def against(found, allowances, table, what):
    """What a crate has beyond its allowance, and allowances that are too large."""
    for crate in sorted({*found, *allowances}):
        allowed, there = allowances.get(crate, 0), found.get(crate, [])
        if len(there) > allowed:
            for place in there:
                yield f"{place} {what}" + (f" ({len(there)} in {crate}, {allowed} allowed)" if allowed else "")
        elif len(there) < allowed:
            yield f"tests/names.py: {table} allows {crate} {allowed}, and it has {len(there)}; make the number {len(there)}"


def rows(files):
    """Rows of contracts that are too long."""
    yield from against(long_rows(files), ROWS, "ROWS", f"in a row of a contract, {COLUMNS} at the most; name its parts")


def lookups(files):
    """Of each crate its definitions' rows with `get_or`."""
    found = defaultdict(list)
    for name in files:
        if re.fullmatch(r"crates/\w+/specs/.*\.antt", name):
            found[crate_of(name)] += [f"{name}:{number}:" for number, row in rows_of(name) if re.search(r"\(get_or\b|\bget_or \w", row) and not row.startswith("use ")]
    return found


def defaults(files):
    """Definitions that look up with a default."""
    yield from against(lookups(files), DEFAULTS, "DEFAULTS", "`get_or` in a definition; say it of a list of pairs (AllZip), or of an option")


def count_arguments(text, at):
    """How many arguments the list that begins at this place of the text has."""
    depth, count, named = 0, 0, False
    for k in range(at, len(text)):
        sign = text[k]
        if sign in ")]>" and not (sign == ">" and text[k - 1] == "-"):
            if depth == 0:
                return count + named
            depth -= 1
        elif sign in "([<":
            depth += 1
        elif sign == "," and depth == 0:
            count, named = count + 1, False
            continue
        named = named or not sign.isspace()
    return count


def long_lists(files):
    """Of each crate its functions with too many arguments."""
    found = defaultdict(list)
    for name in files:
        if re.fullmatch(r"crates/\w+/src/.*\.rt", name):
            text = read(name)
            for it in re.finditer(r"\bfn (\w+)\s*(?:<[^(]*>)?\(", text):
                if (count := count_arguments(text, it.end())) > MOST_ARGUMENTS:
                    found[crate_of(name)].append(f"{name}:{text.count(chr(10), 0, it.start()) + 1}: `{it[1]}` has {count} arguments,")
    return found


def arguments(files):
    """Functions with too many arguments."""
    yield from against(long_lists(files), ARGUMENTS, "ARGUMENTS", f"{MOST_ARGUMENTS} at the most; put those that travel together into one value")


def words(files):
    """Words that have another meaning somewhere else."""
    for name in files:
        if not re.fullmatch(r"crates/.*\.(?:rt|antt|edit)", name):
            continue
        for crates, word, plain in RETIRED:
            if re.fullmatch(crates, crate_of(name)):
                for number, row in rows_of(name):
                    if found := re.search(rf"(?<![a-z])(?:{word})(?![a-z])", row):
                        yield f"{name}:{number}: `{found[0]}`; this crate says {plain}"


def long_files(files):
    for name in files:
        count = len(rows_of(name)) - 1
        most = PROOF_LINES if "/proofs/" in name else LINES
        if name.endswith(SOURCES) and count > most:
            yield f"{name}:{most + 1}: {count} lines, {most} at the most; cut it by subject"


def edge(files):
    """Proofs by hand, which could say anything of a list without bytes; and what writes a descriptor beside `wire`, so that nobody notes it."""
    for name in files:
        if name.endswith("/Proof.antt"):
            yield f"{name}: a proof by hand; write answers (Answers.antt) and lemmas"
        elif re.fullmatch(r"crates/(?!wire/)\w+/src/.*\.rt", name):
            code = re.sub(r"//.*|\b(?:use|ghost use) [^;]*\bfs::[^;]*;|\bFile = File\b", "", read(name))
            if re.search(r"\bio::(?:\{[^}]*\bWrite\b|Write\b)", code):
                yield f"{name}: it writes by `io::Write`; write through `Outward` of `wire`"
            if re.search(r"\bimpl\b[^{;]*\b(?:Client)?Sink for\b", code) and (found := re.search(r"\b(?:File|TcpStream|TcpListener|Stdin|Stdout)\b", code)):
                yield f"{name}: a sink over `{found[0]}`; take an `Outward` of `wire`"


class Words:
    """What the sources, the definitions and the table of crates have, to hold a document's words against."""

    def __init__(self, files):
        self.files, self.folders = set(files), {os.path.dirname(name) for name in files}
        self.sources = [(set(re.findall(r"\w+", text)), text) for text in map(read, filter(SOURCE.match, files))]
        self.words = {word for words, _ in self.sources for word in words}
        self.words |= {os.path.splitext(os.path.basename(name))[0] for name in files}
        for name in filter(OTHER.match, files):
            self.words |= set(re.findall(r"\w+", read(name)))

    def has_path(self, path):
        path = path.rstrip("/.")
        return path in self.files or any(it == path or it.startswith(path + "/") for it in self.folders) or "/out/" in path

    def has_in_crate(self, path):
        path = path.rstrip("/")
        return any(name.split("/", 2)[-1] == path or name.split("/", 2)[-1].startswith(path + "/") for name in self.files if name.startswith("crates/"))

    def has_call(self, kind, call):
        """Whether a block of this type (its declaration, an `impl` or a trait) has a call, a constructor or a clause of that name."""
        block = re.compile(rf"^([ \t]*)(?:pub(?:\(crate\))? )?(?:impl|trait|enum|struct)\b[^{{;]*\b{kind}\b[^{{;]*\{{.*?^\1\}}", re.M | re.S)
        meant = re.compile(rf"\b(?:fn|ensures|requires) {call}\b|^\s*{call}\b", re.M)
        return any({kind, call} <= words and any(meant.search(found[0]) for found in block.finditer(text)) for words, text in self.sources)

    def has(self, word):
        """Whether what is in backticks is there. What is no name at all (a command, a line of output, a number) is."""
        if found := re.fullmatch(r"([A-Z]\w*)::(\w+)(?:\(\))?", word):
            return self.has_call(*found.groups())
        if IN_CRATE.fullmatch(word):
            return self.has_in_crate(word)
        if re.fullmatch(r"[a-z]+(?:_[a-z0-9]+)*|[A-Z][a-z]\w*", word):
            return word in self.words or word in ELSEWHERE
        return True


def prose_of(name):
    """The numbered rows of a document without its fenced blocks."""
    fenced = False
    for number, row in rows_of(name):
        if row.lstrip().startswith("```"):
            fenced = not fenced
        elif not fenced:
            yield number, row


def names(files):
    """What a document names and is not there."""
    there = Words(files)
    for name in DOCUMENTS:
        if name not in there.files:
            continue
        for number, row in rows_of(name):
            for path in PATH.findall(row):
                if not there.has_path(path):
                    yield f"{name}:{number}: {path} is not there; name what is"
        for number, row in prose_of(name):
            for word in re.findall(r"`([^`\s]+)`", row):
                if not there.has(word):
                    yield f"{name}:{number}: `{word}` is nowhere in src/, specs/, proofs/ or crates.txt; name what is there"


def table_of_crates():
    """Of each crate its line of crates.txt, as a number, and the libraries that it names."""
    found = {}
    for number, row in rows_of("crates.txt"):
        if it := re.fullmatch(r"(\w+)(?: \w+(?:=[\w+]+)?)*:(.*)", row.partition("#")[0].rstrip()):
            found[it[1]] = number, it[2].split()
    return found


def count_paths(table):
    """Of each crate how many paths lead from it down through the table, the empty one among them."""
    @functools.cache
    def paths(crate):
        return 1 + sum(paths(it) for it in table[crate][1] if it in table)

    return {crate: paths(crate) for crate in table}


def libraries(files):
    """Libraries that a crate names and does not use, and too many paths."""
    table, mentioned = table_of_crates(), defaultdict(set)
    for name in files:
        if SOURCE.match(name):
            mentioned[crate_of(name)].update(re.findall(r"\w+", read(name)))
    for crate, (number, named) in table.items():
        for it in named:
            if it not in mentioned[crate]:
                yield f"crates.txt:{number}: {crate} names {it}, which no file of it mentions; take it out"
    for crate, most in PATHS.items():
        count = count_paths(table).get(crate, 0)
        if count > most:
            yield f"crates.txt:{table[crate][0]}: {count} paths lead down from {crate}, {most} are allowed; have fewer crates name each other"
        elif most > LOOSE * count:
            yield f"tests/names.py: PATHS allows {crate} {most}, and it has {count}; make the number {count}"


def messages_of(name):
    """The numbered rows that a reader is shown: the whole of a document or a script, of a source its texts in quotes."""
    whole = not name.startswith("crates/") or "--comments" in sys.argv
    for number, row in rows_of(name):
        yield number, row if whole else " ".join(re.findall(r'"((?:[^"\\]|\\.)*)"', row))


def phrases(files):
    """Phrases that are not plain English."""
    for name in filter(SHOWN.fullmatch, files):
        for number, row in messages_of(name):
            for phrase, plain in PHRASES:
                if found := phrase.search(row):
                    yield f"{name}:{number}: '{found[0]}'; say: {plain}"


def main():
    os.chdir(subprocess.run(["git", "rev-parse", "--show-toplevel"], capture_output=True, text=True, check=True).stdout.strip())
    listed = subprocess.run(["git", "ls-files", "--cached", "--others", "--exclude-standard"], capture_output=True, text=True, check=True).stdout.split("\n")
    files = sorted(name for name in listed if os.path.isfile(name))
    if "--rows" in sys.argv:
        for table in long_rows, lookups, long_lists:
            print(table.__name__, {crate: len(found) for crate, found in sorted(table(files).items()) if found})
        print("paths", {crate: count_paths(table_of_crates()).get(crate) for crate in PATHS})
        return 0
    count = 0
    for look in types, rows, defaults, arguments, words, long_files, edge, names, phrases, libraries:
        for finding in look(files):
            count += 1
            print(f"FAILED  {finding}")
    print(f"{'FAILED' if count else 'ok    '}  names, rows, files, documents, phrases and libraries: {count} findings")
    return 1 if count else 0


if __name__ == "__main__":
    sys.exit(main())
