"""Mistakes in documents and in sources, each with the check of tests/documents that has to see it."""
import dataclasses

from document_tree import Tree


@dataclasses.dataclass(frozen=True)
class Mistake:
    """A file in which a text becomes another one everywhere, or which gets another name."""

    check: str
    file: str
    old: str = ""
    new: str = ""

    def __str__(self):
        change = f"{self.old!r} becomes {self.new!r}" if self.old else f"has the name {self.new}"
        return f"the check of {self.check} sees that in {self.file} {change}".replace("in ", "", not self.old)

    def made(self, top):
        """The repository with the mistake, or None if the file no longer has that text."""
        text = Tree(top).text(self.file)
        if not self.old:
            return Tree(top, {self.file: None, self.new: text})
        return Tree(top, {self.file: text.replace(self.old, self.new)}) if self.old in text else None


MISTAKES = (
    Mistake("commands", "docs/OPERATE.md", '    {"findings":0,', '    {"findings":2,'),
    Mistake("commands", "docs/AUDIT.md", "    [24,3,7,true]\n", ""),
    Mistake("commands", "docs/kcore.1", "data aa\n", "data aa\ndone\n"),
    Mistake("commands", "docs/kcore.1", "state2 trace2", "state1 trace2"),
    Mistake("contracts", "crates/kc_core/src/dispatch.rt", "ensures reply {", "ensures answered {"),
    Mistake("contracts", "crates/kc_cli/src/life.rt", "ensures texts {", "ensures faults {"),
    Mistake("contracts", "crates/kc_links/src/list.rt", "fn splice", "fn join"),
    Mistake("contracts", "crates/kc_model/specs/CustodyLaws.antt", "pub stays :", "pub keeps :"),
    Mistake("contracts", "crates/kc_model/specs/Safety.antt", "IsSafe", "IsSecure"),
    Mistake("contracts", "crates/kc_core/wrong-bodies/freeing.edits", "drop_keeps_bytes", "drop_leaves_bytes"),
    Mistake("contracts", "crates/kcore_c/src/handle.rt", "ghost agrees:", "ghost fits:"),
    Mistake("contracts", "docs/ASSURANCE.md", "`IsSafe`, field `measured`", "`IsSafe`, field `measures`"),
    Mistake("contracts", "docs/ASSURANCE.md", "proved: clause `wiped`", "proved: clause `zeroed`"),
    Mistake("contracts", "docs/CONTRACTS.md", "| `kc_snapshot`, `dump`", "| `kc_cli`, `dump`"),
    Mistake("contracts", "docs/CONTRACTS.md", "field `waves` of", "field `kc_footprints` of"),
    Mistake("contracts", "docs/CONTRACTS.md", "(`test_libraries`, `volumes.rt`)", "(`test_libraries`, `volume.rt`)"),
    Mistake("printed contracts", "crates/kc_page/src/page.rt", "overwritten self.old.bytes offset", "overwritten self.old.bytes 0"),
    Mistake("printed contracts", "docs/CONTRACTS.md", "bin/contracts KCore::call ", "bin/contracts KCore::calls "),
    Mistake("names", "crates/kc_core/src/shares.rt", "", "crates/kc_core/src/sharing.rt"),
    Mistake("names", "docs/two-vms.svg", "", "docs/two-guests.svg"),
    Mistake("names", "docs/MAP.md", "`unshared_frame`", "`unshared_frame_of`"),
    Mistake("names", "crates/kc_parts/src/lib.rt", "`specs/Cuts.antt`", "`specs/Cutting.antt`"),
    Mistake("names", "crates/kc_core/src/lib.rt", "`IsLocalityOfParts`", "`IsLocalityOfPlaces`"),
    Mistake("names", "docs/WITNESS.md", "## What is seen", "## What is detected"),
    Mistake("wrong definitions", "crates/kc_model/must-fail/revoke_does_nothing.edit", "::sharing", "::shares"),
    Mistake("scripts", "fleet/witness", "", "fleet/witnesses"),
    Mistake("scripts", "docs/FLEET.md", "fleet/audit --by parallel", "fleet/audit --using parallel"),
    Mistake("crates", "crates.txt", "kc_config_text: kc_types", "kc_config_text: kc_lines"),
    Mistake("crates", "docs/MAP.md", "| `kc_state_text` |", "| `kc_states_text` |"),
    Mistake("crates", "docs/MAP.md", "kc_picture  kc_html", "kc_picture"),
    Mistake("trusted crates", "docs/CONTRACTS.md", "| `kc_snapshot`, `kc_state_text` |", "| `kc_state_text` |"),
    Mistake("trusted crates", "docs/ASSURANCE.md", "`serde_json`, `sha2` (its", "`serde_json` (its"),
    Mistake("third parties", "docs/THIRD_PARTY.md", "| `memchr` |", "| `memory` |"),
    Mistake("third parties", "docs/licences/zmij", "", "docs/licences/other"),
    Mistake("calls", "crates/kc_explain/src/trace_line.rt", '"revoker"', '"revoked"'),
    Mistake("calls", "crates/kc_explain/src/trace_line.rt", "Some((5, false))", "Some((4, false))"),
    Mistake("calls", "crates/kc_types/src/call.rt", "    Take,\n", "    Take,\n    Swap,\n"),
    Mistake("calls", "tests/lib/calls.py", "grantr {v} {c} {g} {n}", "grantr {v} {c} {g}"),
    Mistake("calls", "tests/lib/rules.py", "def revoker(", "def revoke_range("),
    Mistake("calls", "docs/ADDING.md", "`src/movable.rt`", "`src`"),
    Mistake("calls", "docs/RULES.md", "`revoker v c g n` |", "`revoker v c g` |"),
    Mistake("calls", "docs/TEXTS.md", "`grantr`, `revoker` | each", "`grantr` | each"),
    Mistake("refusals", "docs/RULES.md", "| 22 | `tables-full` |", "| 22 | `table-full` |"),
    Mistake("refusals", "docs/OPERATE.md", "| `tables-full` |", "| `tables` |"),
    Mistake("faults", "docs/OPERATE.md", "`bad actor of program N`", "`bad actor`"),
    Mistake("faults", "docs/kcore.1", "no state header", "no header of a state"),
    Mistake("options", "docs/kcore.1", '.BI \\-\\-from " PATH"', '.BI \\-\\-begin " PATH"'),
    Mistake("options", "completions/kcore.bash", "--vm --summary", "--summary"),
    Mistake("options", "completions/kcore.zsh", "$vm $summary", "$summary"),
    Mistake("options", "completions/kcore.zsh", "'--blank[", "'--blanks["),
    Mistake("options", "completions/kcore.zsh", "'audit:", "'judge:"),
    Mistake("options", "completions/kcore.fish", "-l vm", "-l slot"),
    Mistake("options", "completions/kcore.fish", "from replay live' -l workers", "from replay' -l workers"),
    Mistake("options", "completions/kcore.fish", "-a audit", "-a judge"),
    Mistake("options", "README.md", "`kcore replay --workers 8`", "`kcore replay --threads 8`"),
    Mistake("limits", "docs/RULES.md", "at most 32,768", "at most 32,767"),
    Mistake("limits", "docs/RULES.md", "(256 MiB)", "(512 MiB)"),
    Mistake("limits", "docs/RULES.md", "| 0 to 100 |", "| 0 to 101 |"),
    Mistake("examples", "examples/README.md", "| `two-frames` |", "| `three-frames` |"),
    Mistake("examples", "stories/README.md", "| `ranges` |", "| `range` |"),
    Mistake("examples", "docs/TEXTS.md", '{"finding":"chain 1"}', '{"finding":"chain 3"}'),
    Mistake("tests", "tests/progress", "", "tests/awaited"),
    Mistake("tests", "crates/kc_html/src/lib.rt", "//!", "//"),
    Mistake("lengths", "docs/MAP.md", "present", "present " * 400),
    Mistake("lengths", "docs/OPERATE.md", "frames", "frames " * 400),
    Mistake("lengths", "docs/CONTRACTS.md", "| `kc_page`, `PageBytes`", f"| {'pages ' * 60}`kc_page`, `PageBytes`"),
    Mistake("words", "docs/MAP.md", "is held until", "stands until"),
    Mistake("words", "docs/TOUR.md", "a frame", "also a frame, " * 9),
    Mistake("functions", "docs/EMBED.md", "| `kcore_turn` |", "| `kcore_next` |"),
    Mistake("functions", "include/kcore.h", "uint32_t kcore_turn(", "uint32_t kcore_next("),
    Mistake("the version", "CHANGELOG.md", "## [3.0.0]", "## [3.0.1]"),
    Mistake("the version", "docs/kcore.1", '"kcore 3.0.0"', '"kcore 2.0.0"'),
    Mistake("the first table", "README.md", "`refused not-present`", "`refused protected`"),
    Mistake("the configuration without --config", "examples/configurations/default.json", '"core":1', '"core":2'),
    Mistake("the configuration without --config", "docs/TEXTS.md", '"host":4,"leaves":1', '"host":5,"leaves":1'),
)
