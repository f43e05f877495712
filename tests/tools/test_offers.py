"""What explain calls right of a refused text is right: each offer of many spoiled scenarios is put where it belongs."""

import random
import re
import unittest

import cuts
import runs
from xrf_tools.refusals import told
from xrf_tools.refused import Refused, read_refusal
from xrf_tools.source import REFUSED, replay

PROGRAM = str(cuts.PROGRAM)
OFFER = re.compile(r"Right would be(, before it)?: (.*?)\.(?: |$)", re.M)
TRIED = 400
MOST = 6000
PUT_IN = """STEP A/STEP B/STEP A 40/STEP B 40/STOP A NONE/STOP B ALL/STOP A TORN 00/FAIL A NONE/FAIL B ALL/FAIL A TORN ff/CONFIRM 1
CONFIRM 2/REPLY A GO/REPLY B IGNORE/CEBT A PERFORM TAKEOVER/CEBT B PERFORM SHUTDOWN/EXIT A KEEP/EXIT B DROP/ABEND A/ABEND B/LOSE A
LOSE B/START A ACTIVE/START B ACTIVE/START B STANDBY/START A STANDBY/RECORD 3 X/RECORD 70000 X/ADI 9/LEVEL A 1/XRFSOFF FORCE/END
CHOICES/WORK A BEGIN U/WORK A SIGNON T ANNA/XRF 2/STRAT A ACTIVE/TAKEOVER AUTO/PLAN 3 STEP A""".replace("\n", "/").split("/")


def scenarios() -> list[list[str]]:
    """The scenarios of this repository that are short, by name."""
    paths = sorted({*(runs.ROOT / "examples").glob("**/*.in"), *(runs.ROOT / "tests/runs").glob("*.in")})
    return [path.read_text().rstrip("\n").split("\n") for path in paths if path.stat().st_size < MOST]


def without_a_word(line: str, chance: random.Random) -> str:
    words = line.split()
    if len(words) > 1:
        del words[chance.randrange(len(words))]
    return " ".join(words)


def spoiled(lines: list[str], chance: random.Random) -> list[str]:
    """A scenario with one mistake in it."""
    place, lines = chance.randrange(len(lines)), list(lines)
    how = chance.choice(("leave out", "swap", "number", "word", "put in", "put in", "small", "twice", "site", "tab", "typing"))
    line = lines[place]
    if how == "leave out":
        del lines[place]
    elif how == "swap":
        lines[place - 1], lines[place] = lines[place], lines[place - 1]
    elif how in ("put in", "twice"):
        lines.insert(place, line if how == "twice" else chance.choice(PUT_IN))
    else:
        lines[place] = {
            "number": re.sub(r"\d+", lambda _: str(chance.choice((0, 1, 2, 3, 7, 12, 40, 300, 70000))), line),
            "word": without_a_word(line, chance), "small": line.lower(), "site": line.replace("A", "B", 1),
            "tab": line.replace(" ", "\t", 1), "typing": line[:2][::-1] + line[2:],
        }[how]
    return lines


def mended(refused: Refused, lines: list[str], offer: str, stays: bool, said: str) -> tuple[list[str], list[str]]:
    """The text with the offer: the lines up to where the refused one was, and those behind it."""
    place = max(refused.number - 1, 0)
    front, here, rest = lines[:place], lines[place : place + 1], lines[place + 1 :]
    if offer in ("one of the two alone", "the text without this line", "the header before this line, or the text without this line"):
        return front, rest
    if offer.startswith("this line "):
        to = int(re.findall(r"line (\d+)", offer)[0] if "line " in offer[10:] else re.findall(r"is line (\d+)", said)[0]) - 1
        return [*front[:to], *here, *front[to:]], rest
    moved = re.fullmatch(r"(.*), before line (\d+)|(XRF 2) in line (\d+)|CHOICES, and behind it (.*)", offer)
    if moved is None:
        return [*front, *offer.split(", "), *(here if stays else [])], rest
    if moved[5]:
        return [*front, "CHOICES", moved[5]], rest
    to = int(moved[2] or moved[4]) - 1
    return ([*front[:to], moved[1], *front[to:]], rest) if moved[1] else ([*front[:to], moved[3], *front[to + 1 :], *here], rest)


class Offers(unittest.TestCase):
    @unittest.skipUnless(cuts.is_current(), "the program is not built, so what is called right was not tried")
    def test_each_offer_is_taken_in_the_place_of_the_refused_line(self) -> None:
        chance, known = random.Random(37), scenarios()
        reasons, offers = set(), 0
        for _ in range(TRIED):
            lines = spoiled(chance.choice(known), chance)
            text = "\n".join([*lines, ""])
            answer = replay(text, PROGRAM)
            if answer.text.startswith(REFUSED):
                refused = read_refusal(answer.text, text)
                reasons.add(refused.reason)
                offers += self.try_offers(refused, lines)
        self.assertGreater(len(reasons), 12)
        self.assertGreater(offers, 100)

    def try_offers(self, refused: Refused, lines: list[str]) -> int:
        """With each offer in its place, no line up to the refused one's is refused any more."""
        said, tried = "\n".join(told(refused, PROGRAM)), 0
        for before, offered in OFFER.findall(said):
            for offer in offered.split("; or "):
                offer = re.sub(r" and (\d+) bytes?, which .* hex digits", lambda count: " " + "00" * int(count[1]), offer)
                front, rest = mended(refused, lines, offer, before != "", said)
                answer = replay("\n".join([*front, *rest, ""]), PROGRAM)
                again = read_refusal(answer.text, "") if answer.text.startswith(REFUSED) else None
                is_taken = again is None or again.number > len(front) or again.reason == "NO-END"
                self.assertTrue(is_taken, f"{offer}\n{said}\n{answer.text}")
                tried += 1
        return tried


if __name__ == "__main__":
    unittest.main()
