"""The text of an ACT line, taken apart."""

import re
from dataclasses import dataclass, field

from xrf_tools.errors import Fault
from xrf_tools.language import NAME, NUMBER, VALUE

UNIT = rf"{NUMBER}\.{NUMBER}"

CONTROL = (
    rf"(?P<last>{NUMBER}) OWNER (?P<owner>NONE|{NUMBER}\.[AB]\.(?:RUNNING|NORMAL|ABEND|TAKEOVER))"
    rf" ALT (?P<alt>NONE|{NUMBER}\.[AB]) TAKING (?P<taking>NONE|{NUMBER}\.(?:LOST|ABEND|SHUTDOWN|COMMAND))"
    r"(?: FORMAT (?P<format>[12]))?"
)
MESSAGE = (
    rf"(?P<slot>{NUMBER}) (?:(?P<begin>BEGIN) (?P<begun>{NUMBER})|(?P<end>END) (?P<ended>{NUMBER}) (?P<last>{NUMBER})"
    rf"|(?P<kind>TERM|USER) (?P<epoch>{NUMBER}) (?P<number>{NUMBER}) (?P<terminal>{NAME}) (?P<class>[12])"
    rf" (?P<state>ON|OFF)(?: (?P<user>{NAME}|-))?)"
)
LOG = rf"(?P<place>{NUMBER}) (?:(?P<kind>PUT) (?P<unit>{UNIT}) (?P<record>{NUMBER})|(?P<end>COMMIT|BACKOUT) (?P<ended>{UNIT}))"
KEYPOINT = rf"(?P<slot>[01]) KEYPOINT (?P<number>{NUMBER}) START (?P<start>{NUMBER})"
CEBT = r"(?P<command>(?:PERFORM|INQUIRE|SET)(?: [A-Z]+)+) = (?P<reply>[A-Z ]+)"
DECISION = (
    rf"(?P<decision>NOTHING|ASK|START|END|WAIT|THROUGH|SEEN|CATCHUP|FORGET|LOST)(?: (?P<what>[A-Z]+|{NUMBER}))?"
)
WHY = r"(?P<why>NOACTIVE|SIGNEDOFF|DROPPED|NORMAL|SHUTDOWN|ABANDONED|MSGERROR|FORMAT|REFUSED)(?: (?P<by>{}))?".format(NUMBER)

# The words behind each verb.
FORMS: dict[str, re.Pattern[str]] = {
    verb: re.compile(words)
    for verbs, words in (
        ("TICK ABEND RESERVE CTLREAD RELEASE LOOK1 LOOK2 RESTARTED", ""),
        ("START", r"(?P<role>ACTIVE|STANDBY)"),
        ("CONFIRM", rf"(?P<number>{NUMBER})"),
        ("REPLY", r"(?P<answer>GO|IGNORE)"),
        ("EXIT", r"(?P<answer>ABEND|KEEP|DROP)"),
        ("CEBT", CEBT),
        ("CTLWRITE", CONTROL),
        ("SIGNAL1 SIGNAL2", rf"(?P<counter>{NUMBER}) (?P<cursor>{NUMBER})"),
        ("DECIDE", DECISION),
        ("MSGREAD MSGCLOSE", rf"(?P<slot>{NUMBER})"),
        ("MSGBODY MSGOPEN", MESSAGE),
        ("LOGREAD", rf"(?P<block>{NUMBER})"),
        ("LOGLOOK LOGCLOSE", rf"(?P<place>{NUMBER})"),
        ("LOGBODY LOGOPEN", LOG),
        ("KPREAD KPCLOSE", r"(?P<slot>[01])"),
        ("KPBODY KPOPEN", KEYPOINT),
        ("FILEREAD UNDO", rf"(?P<record>{NUMBER})"),
        ("FILEWRITE", rf"(?P<unit>{UNIT}) (?P<record>{NUMBER}) (?P<value>{VALUE})"),
        ("ITEM", rf"(?P<item>{NUMBER})"),
        ("CLT", rf"(?P<line>{NUMBER}) (?P<text>.+)"),
        ("ENDED", WHY),
    )
    for verb in verbs.split()
}

# What an act does to a data set, for arrows and marks.
READS = {
    "CTLREAD": "CTL", "LOOK1": "CTL", "LOOK2": "MSG", "MSGREAD": "MSG", "LOGREAD": "LOG", "LOGLOOK": "LOG",
    "KPREAD": "KEY", "FILEREAD": "FILE",
}
WRITES = {
    "CTLWRITE": "CTL", "SIGNAL1": "CTL", "SIGNAL2": "MSG", "MSGCLOSE": "MSG", "MSGBODY": "MSG", "MSGOPEN": "MSG",
    "LOGCLOSE": "LOG", "LOGBODY": "LOG", "LOGOPEN": "LOG", "KPCLOSE": "KEY", "KPBODY": "KEY", "KPOPEN": "KEY",
    "FILEWRITE": "FILE", "UNDO": "FILE",
}
WIDTHS = {"CLOSE": 1, "OPEN": 1, "BODY": 63}


@dataclass(frozen=True)
class Act:
    """An act: its verb, the words behind it by their names, and what became of it.

    `how` is made, lost (a signal), stopped or failed. `landing` is NONE, ALL or TORN where it was stopped or failed
    inside the act, and `torn` has the bytes that landed.
    """

    verb: str
    words: dict[str, str] = field(default_factory=dict)
    how: str = "made"
    landing: str = ""
    torn: bytes = b""

    def number(self, name: str) -> int:
        return int(self.words[name])

    @property
    def lands(self) -> bool:
        """Whether its own bytes landed."""
        return self.how == "made" or (self.how in ("stopped", "failed") and self.landing == "ALL")

    @property
    def reads(self) -> str:
        return READS.get(self.verb, "")

    @property
    def writes(self) -> str:
        return WRITES.get(self.verb, "")


def width_of(verb: str) -> int:
    """How many bytes may land of a torn write; 0 where it can't be torn."""
    if verb in ("FILEWRITE", "UNDO"):
        return 32
    if verb[:2] in ("MS", "LO", "KP"):
        return next((width for end, width in WIDTHS.items() if verb.endswith(end)), 0)
    return 0


def split_landing(text: str) -> tuple[str, str, bytes]:
    """The text of an act without its landing, the landing, and the torn bytes."""
    torn = re.fullmatch(r"(.+) TORN ((?:[0-9a-f]{2}){1,63})", text)
    if torn:
        return torn[1], "TORN", bytes.fromhex(torn[2])
    whole = re.fullmatch(r"(.+) (NONE|ALL)", text)
    if whole:
        return whole[1], whole[2], b""
    raise Fault(f"no landing is said of '{text}'")


def plain(text: str) -> tuple[str, dict[str, str]]:
    """The verb and the words of an act that is made."""
    verb, _, rest = text.partition(" ")
    form = FORMS.get(verb)
    match = form.fullmatch(rest) if form else None
    if match is None:
        raise Fault(f"'{text[:60]}' is no act")
    words = {name: word for name, word in match.groupdict().items() if word is not None}
    return verb, joined(verb, words)


def joined(verb: str, words: dict[str, str]) -> dict[str, str]:
    """One name for each thing, whichever branch of a form it came from."""
    if verb.startswith("MSG") and ("begin" in words or "end" in words):
        kind = "BEGIN" if "begin" in words else "END"
        epoch = words.get("begun") or words["ended"]
        return {"slot": words["slot"], "kind": kind, "epoch": epoch, "number": words.get("last", "0")}
    if verb.startswith("LOG") and "end" in words:
        return {"place": words["place"], "kind": words["end"], "unit": words["ended"]}
    return words


def read_act(text: str) -> Act:
    """The act of an ACT line; Fault where it is none."""
    if text == "STOP":
        return Act("STOP", how="stopped")
    first, _, rest = text.partition(" ")
    if first in ("STOP", "FAIL"):
        bare, landing, torn = split_landing(rest)
        verb, words = plain(bare)
        if landing == "TORN" and len(torn) != width_of(verb):
            raise Fault(f"{len(torn)} bytes can't land of '{bare[:40]}'")
        return Act(verb, words, "stopped" if first == "STOP" else "failed", landing, torn)
    if text.endswith(" LOST") and first in ("SIGNAL1", "SIGNAL2"):
        verb, words = plain(text.removesuffix(" LOST"))
        return Act(verb, words, "lost")
    verb, words = plain(text)
    return Act(verb, words)
