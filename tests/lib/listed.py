"""Lists that documents and scripts have of what the code defines: crates, calls, refusals, faults, options. Each check
yields what it says and what is wrong about it, '' if it holds."""
import re
import subprocess

from cited import QUOTED, paragraphs_of, rows_of
from document_tree import words_of

OPTION = re.compile(r"--[a-z][a-z-]*")
# What crates.txt has besides the names of crates: a kind of library, and the standard library's own parts.
BUILT_IN = {"staticlib", "std_alloc", "std_heap"}
COMMANDS = "replay", "live", "custody", "audit", "redact", "convert", "measure"


def differing(listed, meant):
    """What one list lacks of another, and what it has beyond it."""
    lacks, beyond = sorted(set(meant) - set(listed)), sorted(set(listed) - set(meant))
    return "; ".join([f"lacks {', '.join(lacks)}"] * bool(lacks) + [f"has {', '.join(beyond)}"] * bool(beyond))


def section(text, head):
    """The text below a heading, up to the next one."""
    return re.split(r"^#+ ", text.partition(f"# {head}\n")[2], maxsplit=1, flags=re.M)[0]


# Crates

def direct(tree, crate):
    """The crates that one depends on, except those that come with others of them."""
    own = tree.crates[crate]
    return own - set().union(*(tree.reached(below) for below in own))


def check_crates(tree):
    text = tree.text("docs/MAP.md")
    rows = {QUOTED.findall(cells[0])[0]: cells for _, cells in rows_of(section(text, "Crates")) if "`" in cells[0]}
    yield "docs/MAP.md: its table has the crates of crates.txt", differing(rows, tree.crates)
    drawn = words_of(text.partition("\n| word")[0])
    yield "docs/MAP.md: its picture has the crates of crates.txt", differing(drawn & set(tree.crates), {
        crate for crate in tree.crates if crate not in ("test_libraries", "plan_lister")})
    for crate in sorted(rows.keys() & tree.crates.keys()):
        wrong = differing(QUOTED.findall(rows[crate][2]), direct(tree, crate))
        yield f"docs/MAP.md: what {crate} depends on", wrong


def check_trusted(tree):
    """CONTRACTS names every crate with definitions, and ASSURANCE every crate of the toolchain's, as trusted."""
    definitions = section(tree.text("docs/CONTRACTS.md"), "Whose definitions are trusted")
    defining = {crate for crate in tree.crates if tree.below(f"crates/{crate}/specs")}
    named = set(QUOTED.findall(definitions)) & set(tree.crates)
    yield "docs/CONTRACTS.md: whose definitions are trusted", differing(named, defining)
    trusted = set(QUOTED.findall(section(tree.text("docs/ASSURANCE.md"), "What is trusted")))
    foreign = foreign_of(tree, tree.crates)
    yield "docs/ASSURANCE.md: which crates of the toolchain are trusted", differing(trusted & foreign, foreign)


def foreign_of(tree, crates):
    """The crates of the toolchain that these crates of ours name."""
    lines = [line.partition(":") for line in tree.text("crates.txt").splitlines() if re.match(r"\w", line)]
    named = [named for name, _, named in lines if name.split(" ")[0] in crates]
    return words_of("\n".join(named)) - set(tree.crates) - BUILT_IN


def check_third_parties(tree):
    """THIRD_PARTY has each crate of the toolchain that the program's crates name, and each text of a licence."""
    text = tree.text("docs/THIRD_PARTY.md")
    rows = rows_of(text.partition("\n\nThe standard library")[0])
    named = {name for _, cells in rows for name in QUOTED.findall(cells[0])}
    linked = foreign_of(tree, {"kcore", *tree.reached("kcore")})
    yield "docs/THIRD_PARTY.md: each library of the program", differing(named & linked, linked)
    cited = {name for name in QUOTED.findall(text) if name.startswith("docs/licences/")}
    yield "docs/THIRD_PARTY.md: each text of a licence", differing(cited, tree.below("docs/licences"))


# Calls

def spelled(tree):
    """How the definition spells each call: the variant of the type, its words, and its name."""
    text = tree.text("crates/kc_trace/specs/Spelling.antt")
    return re.findall(r"^words_of \(?(\w+)([\w ]*)\)? = codes \"(\w+)\"", text, re.M)


def calls_of(tree):
    """Each call's name in texts, with the number of its words."""
    return {name: len(words.split()) for _, words, name in spelled(tree)}


def forms_in(text):
    """The calls that tables spell with their words: `hread f off len`."""
    forms = [form.split(" ") for _, cells in rows_of(text) for form in QUOTED.findall(cells[0])]
    return {f"{name} {len(words)}" for name, *words in forms if name.isalpha()}


def first_names(rows):
    return [name for _, cells in rows for name in QUOTED.findall(cells[0])]


def check_calls(tree):
    calls = calls_of(tree)
    counted = {f"{name} {count}" for name, count in calls.items()}
    fields = tree.text("crates/kc_types/src/call.rt").partition("pub enum Call {")[2].partition("\n}")[0]
    variants = re.findall(r"^    (\w+)(?:,| \{)", fields, re.M)
    yield "Spelling.antt: each call of the type", differing([variant for variant, _, _ in spelled(tree)], variants)
    rules, texts = tree.text("docs/RULES.md"), tree.text("docs/TEXTS.md")
    yield "docs/RULES.md: each call with its words", differing(forms_in(section(rules, "Calls")), counted)
    # (the table before it is that of a head)
    forms = forms_in(section(texts, "Trace").partition("| line | arguments |")[2])
    yield "docs/TEXTS.md: each call with its words", differing(forms, counted)
    conditions = rows_of(rules.rpartition("| call | its conditions")[2])
    yield "docs/RULES.md: the conditions of each call", differing(first_names(conditions), calls)
    lines = rows_of(texts.partition("| call | its lines")[2].partition("\n\n")[0])
    yield "docs/TEXTS.md: the lines of custody of each call", differing(first_names(lines), calls)
    adding = section(tree.text("docs/ADDING.md"), "A call")
    cited = {name.rpartition("/")[2] for name in QUOTED.findall(adding)}
    yield "docs/ADDING.md: each file that knows its example by name", differing(files_with(tree, "Revoke") - cited, ())
    yield "kc_explain: each call with its words", differing(explained(tree), counted)
    forms = re.findall(r'"(\w+)((?: \{\w+\})*)"', tree.text("tests/lib/calls.py"))
    known = {f"{name} {words.count('{')}" for name, words in forms}
    yield "tests/lib/calls.py: each call with its words", differing(known & counted, counted)
    yield "tests/lib/rules.py: each call", differing(words_of(tree.text("tests/lib/rules.py")) & set(calls), calls)


def files_with(tree, variant):
    """The names of the files of src/ and specs/ that have a variant of the type of calls."""
    folders = [f"crates/{crate}/{part}" for crate in tree.crates for part in ("src", "specs")]
    files = [file for folder in folders for file in tree.below(folder)]
    return {file.rpartition("/")[2] for file in files if variant in words_of(tree.text(file))}


def explained(tree):
    """The calls that kc_explain knows, with the number of their words."""
    text = tree.text("crates/kc_explain/src/trace_line.rt")
    found = re.findall(r"is_among\(\s*name,\s*&\[(.*?)\],?\s*\) \{\s*Some\(\((\d+), \w+\)\)", text, re.S)
    return {f"{name} {count}" for names, count in found for name in re.findall(r'"(\w+)"', names)}


# Refusals and faults

def check_refusals(tree):
    source = tree.text("crates/kc_types/src/refusal.rt")
    numbers = dict(re.findall(r"Refusal::(\w+) => (\d+)", source))
    names = {int(numbers[variant]): name for variant, name in re.findall(r'Refusal::(\w+) => "([\w-]+)"', source)}
    rules = tree.text("docs/RULES.md")
    rows = [cells for _, cells in rows_of(section(rules, "Refusals"))]
    listed = {int(cells[0]): cells[1].strip("`") for cells in rows if cells[0].isdigit()}
    yield "docs/RULES.md: each refusal with its number", differing(map(str, listed.items()), map(str, names.items()))
    used = {name for cells in rows if "`" in cells[0] for name in QUOTED.findall(" ".join(cells[1:]))}
    unknown = used - set(names.values()) - calls_of(tree).keys()
    yield "docs/RULES.md: what a call's conditions name is a refusal", differing(unknown, ())
    operate = section(tree.text("docs/OPERATE.md"), "A reply that refuses")
    named = {name for _, cells in rows_of(operate) for name in QUOTED.findall(cells[0])}
    yield "docs/OPERATE.md: where to look, for each refusal", differing(named, names.values())


def faults_of(tree):
    """The words of each fault's line, up to a number."""
    sources = [tree.text(file) for crate in tree.crates for file in tree.below(f"crates/{crate}/specs", "Faults.antt")]
    found = {words for source in sources for words in re.findall(r'codes "(\w[^"]*)"', source)}
    return {words.removeprefix("kcore:").strip() for words in found} - {""}


def check_faults(tree):
    faults = faults_of(tree)
    shown = faults - {"bad number of workers"}
    heads = ("TEXTS", "What the program says of faults", faults), ("OPERATE", "A line on standard error", shown)
    for document, head, meant in heads:
        rows = [QUOTED.findall(cells[0]) for _, cells in rows_of(section(tree.text(f"docs/{document}.md"), head))]
        names = {name.removeprefix("kcore: ") for row in rows for name in row}
        # The first fault of a row is named in full, the others perhaps by their last words.
        begun = [(row[0].removeprefix("kcore: ").rpartition(": ")[0], row[1:]) for row in rows if row]
        names |= {f"{first}: {name}" for first, more in begun if first for name in more}
        found = {fault for fault in meant if any(name.startswith(fault) for name in names)}
        yield f"docs/{document}.md: each fault", differing(found, meant)
        first = {row[0].removeprefix("kcore: ") for row in rows if row and row[0] != "kcore:"}
        unknown = {name for name in first if not name.startswith(tuple(faults))}
        yield f"docs/{document}.md: only faults of the program", differing(unknown, ())
    lines = section_of_page(plain(tree.text("docs/kcore.1")), "FAULTS")
    # What may be after a colon comes on the next line.
    for first, more in re.findall(r"\n(.*): \w+\n\((.*)\)", lines):
        lines += "".join(f"\n{first}: {name}" for name in more.split(", "))
    yield "docs/kcore.1: each fault", differing({fault for fault in shown if f"\n{fault}" in lines}, shown)


# The man page, help and completions

def plain(page):
    """A man page without its markup; the words of a macro are joined as it joins them."""
    lines = []
    for line in page.split("\n"):
        if macro := re.match(r"\.(B|I|BI|BR|IR|RB|RI) (.*)", line):
            words = re.findall(r'"([^"]*)"|(\S+)', macro[2])
            line = ("" if len(macro[1]) == 2 else " ").join(quoted or word for quoted, word in words)
        elif re.match(r"\.(SH|TP|br|PP|EX|EE|TH)", line):
            line = f"# {line[4:]}" if line.startswith(".SH") else ""
        lines.append(line)
    text = "\n".join(lines)
    for mark, sign in (("\\-", "-"), ("\\(aq", "'"), ("\\e", "\\")):
        text = text.replace(mark, sign)
    return text


def section_of_page(page, head):
    return page.partition(f"# {head}\n")[2].partition("\n# ")[0]


def completed(tree, *words):
    """What completions offer for the last of some words."""
    script = """. "$1"; shift; COMP_WORDS=(kcore "$@"); COMP_CWORD=$#
        _kcore kcore "${!#}" "${COMP_WORDS[COMP_CWORD - 1]}"; printf "%s\\n" "${COMPREPLY[@]}" """
    words = ["bash", "--norc", "-c", script, "-", "/dev/stdin", *words]
    ran = subprocess.run(words, input=tree.text("completions/kcore.bash"), capture_output=True, text=True)
    return set(ran.stdout.split())


def completed_by_zsh(tree):
    """The options that completions of zsh have for each command, and for none: `name) _arguments $config ..`."""
    text = tree.text("completions/kcore.zsh")
    specs = {name: OPTION.findall(spec) for name, spec in re.findall(r"^    local (?:-a )?(\w+)=(.*'.*)$", text, re.M)}
    arms = re.findall(r"^        (\w+)\) _arguments (.*) ;;$", text, re.M)
    arms += [("", line) for line in re.findall(r"^    _arguments -C (.*)$", text, re.M)]
    return {command: set().union(*(specs[name] for name in re.findall(r"\$(\w+)", line))) for command, line in arms}


def completed_by_fish(tree):
    """The same for fish: `complete -c kcore -n '__fish_seen_subcommand_from replay live' -l config ..`."""
    offered = {command: set() for command in ("", *COMMANDS)}
    line = re.compile(r"^complete -c kcore -n '?(.*?)'? (?:-s \w )?-l (\w+)", re.M)
    for condition, option in line.findall(tree.text("completions/kcore.fish")):
        kind, *named = condition.split(" ")
        if kind == "__fish_use_subcommand":
            named = [""]
        elif kind == "not":
            named = set(offered) - set(named)
        for command in named:
            offered[command].add(f"--{option}")
    return offered


def help_of(program, *words):
    return subprocess.run([program, *words, "--help"], capture_output=True, text=True).stdout


def check_called(tree, known):
    """Each command line within a sentence has only options that its command knows."""
    for document in tree.documents():
        paragraphs = paragraphs_of(tree.text(document))
        for line, name in [(line, name) for line, paragraph in paragraphs for name in QUOTED.findall(paragraph)]:
            for command, words in re.findall(r"\bkcore (replay|live|custody|audit)\b([^|]*)", name):
                wrong = differing(set(OPTION.findall(words)) - known[command], ())
                yield f"{document}:{line}: `{name}`", wrong


def check_page(tree, known, commands, every):
    """The man page has each command with its options, and no other."""
    page = plain(tree.text("docs/kcore.1"))
    synopsis = re.split(r"^kcore ?", section_of_page(page, "SYNOPSIS"), flags=re.M)
    for command, helped in known.items():
        begun = [part for part in synopsis if re.match(rf"\s*\[? ?{command}\b", part)]
        yield f"docs/kcore.1: synopsis of {command}", differing(OPTION.findall("".join(begun)), helped - {"--help"})
    explained = set(re.findall(r"^(?:-\w, )?(--[a-z-]+)", section_of_page(page, "OPTIONS"), re.M))
    yield "docs/kcore.1: options", differing(explained, every)
    described = [command for command in commands if f"\n{command}\n" in section_of_page(page, "DESCRIPTION")]
    yield "docs/kcore.1: commands", differing(described, set(commands) - {"help"})


def check_completions(tree, known, commands, top):
    """Completions of each shell offer each command with its options, and no other. Those of bash are run, the others
    read."""
    zsh, fish = completed_by_zsh(tree), completed_by_fish(tree)
    for command, helped in known.items():
        yield f"completions/kcore.bash: the options of {command}", differing(completed(tree, command, "--"), helped)
        yield f"completions/kcore.zsh: the options of {command}", differing(zsh[command], helped)
        yield f"completions/kcore.fish: the options of {command}", differing(fish[command], helped)
    yield "completions/kcore.bash: commands and their options", differing(completed(tree, ""), [*commands, *top])
    yield "completions/kcore.zsh: the options without a command", differing(zsh[""], top)
    yield "completions/kcore.fish: the options without a command", differing(fish[""], top)
    described = re.findall(r"^        '(\w+):", tree.text("completions/kcore.zsh"), re.M)
    yield "completions/kcore.zsh: commands", differing(described, commands)
    described = re.findall(r"__fish_use_subcommand -a (\w+)", tree.text("completions/kcore.fish"))
    yield "completions/kcore.fish: commands", differing(described, commands)
    listed = re.search(r"set -l commands (.*)", tree.text("completions/kcore.fish"))[1].split()
    yield "completions/kcore.fish: commands after help", differing(listed, commands)


def check_options(tree, program):
    known = {command: set(OPTION.findall(help_of(program, command))) for command in COMMANDS}
    # (the options of its examples are those of commands)
    top = help_of(program).partition("Examples:")[0]
    commands = re.findall(r"^  ([a-z]+) ", top.partition("Commands:")[2].partition("Options:")[0], re.M)
    yield "docs: the commands of the program", differing(COMMANDS, set(commands) - {"help"})
    yield from check_page(tree, known, commands, set(OPTION.findall(top)).union(*known.values()))
    yield from check_completions(tree, known, commands, OPTION.findall(top))
    yield from check_called(tree, known)
