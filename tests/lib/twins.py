"""Finds twins: definitions and lemmas of the crates that say the same, in two places or under two names."""
import collections
import re

LEFT_OUT = {"Lib.antt", "Answers.antt", "Invariants.antt", "Proof.antt"}
HEAD = re.compile(r"(?:(?:pub|abbrev|unfoldable)\s+)*((?:record\s+|data\s+)?(\S+).*)", re.S)
# The twins that there are. One that is mended is taken out here.
KNOWN = {
    "kc_custody/proofs/Appended or-false, kc_model/proofs/Ranges/Rows or-false, kc_model/proofs/Refusals/OneFrame or-none",
    "kc_custody/proofs/Runs length-front, kc_model/proofs/Custody/Runs length-front, kc_remarks/proofs/Runs length-front",
    "kc_custody/specs/Chosen is_frame_of, kc_remarks/specs/Attempts is_owner_of",
    "kc_custody/specs/Growing has_member, kc_footprints/specs/Members has_member",
    "kc_custody/specs/Growing with_member, kc_footprints/specs/Members with_member",
    "kc_custody/specs/Marks frame_event, kc_model/specs/Before frame_before",
    "kc_custody/specs/Marks turning, kc_model/proofs/States/Phases turned_by",
    "kc_dump_text/proofs/ReadLines joined-spaced, kc_state_text/proofs/Lines joined-spaced",
    "kc_dump_text/specs/Words under, kc_types/specs/Maybe below",
    "kc_live/proofs/Heads digest_is, kc_redact_text/proofs/Converts digest_is",
    "kc_live/proofs/Heads no_fault, kc_trace/proofs/HeadWords no_fault",
    "kc_live/proofs/Heads word_is_bytes, kc_redact_text/proofs/Converts word_is_bytes",
    "kc_live/proofs/Heads words_are_bytes, kc_redact_text/proofs/Converts words_are_bytes",
    "kc_model/proofs/Blind/AsView not-true, kc_model/proofs/Redaction/Lacking not-counted",
    "kc_model/proofs/Custody/Ordered line_of, kc_trace/specs/CustodyText line_of_change",
    "kc_model/proofs/Custody/Phases same-slot, kc_model/proofs/Views/Events same-slot",
    "kc_model/proofs/Custody/Written some-same, kc_model/proofs/Safe/Trimming some-same",
    "kc_model/proofs/Lawful/HandCalls handed_frame, kc_model/proofs/Undisturbed/Handed came",
    "kc_model/proofs/Lawful/Verifies config-trimmed, kc_model/proofs/Safe/Starting config-trimmed",
    "kc_model/proofs/Lawful/Wipes frame-wiped, kc_replay/proofs/Wiping frame-wiped",
    "kc_model/proofs/Ranges/Laws phase-kept, kc_model/proofs/States/Phases phase-kept",
    "kc_model/proofs/Ranges/Singles below, kc_model/proofs/Safe/Available below, kc_model/proofs/Safe/Serving below",
    "kc_model/proofs/Ranges/Singles or_else-both, kc_model/proofs/Refusals/Served or_else-none",
    "kc_model/proofs/Redaction/Blank counted-is, kc_redact_text/proofs/Made counted",
    "kc_model/proofs/Redaction/Blank frame-blank, kc_snapshot/proofs/InForm frame_blank",
    "kc_model/proofs/Safe/Trimming turned, kc_model/proofs/States/Slots overlaps-turned, kc_vms/proofs/Judged overlaps-turned",
    "kc_redact_text/proofs/Converts are_digests, kcore_c/proofs/Opened are_digests",
    "kc_run/specs/Endings Took, kc_texts/specs/Ends Seen",
    "kc_state_text/proofs/Lines AreWords, kc_trace/proofs/Lines AreWords",
    "kc_state_text/proofs/Spelled data-digest, kc_trace/proofs/HeadWords digest_is_data",
    "kc_state_text/specs/Pieces longest_page_line, kc_trace/specs/ReplyText longest_reply",
}


def definitions(text):
    """The names of a file's definitions and lemmas, and what each says, with another name in place of its own."""
    for block in re.split(r"\n{2,}(?=\S)", re.sub(r"^--.*$", "", text, flags=re.M)):
        if (found := HEAD.match(block.strip())) and not re.match(r"(?:pub )?(?:use|mod) ", block.strip()):
            name = re.escape(found[2])
            yield found[2], " ".join(re.sub(rf"(?<![\w◌.'-]){name}(?![\w◌'-])", "@", found[1]).split())


def twins(top):
    """The twins of all crates: what each entry of KNOWN has."""
    places = collections.defaultdict(list)
    for file in sorted(top.glob("crates/*/specs/**/*.antt")) + sorted(top.glob("crates/*/proofs/**/*.antt")):
        if file.name not in LEFT_OUT:
            inside = file.relative_to(top / "crates").with_suffix("")
            for name, says in definitions(file.read_text()):
                places[says].append(f"{inside} {name}")
    return {", ".join(sorted(it)) for it in places.values() if len(it) > 1}
