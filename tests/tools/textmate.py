"""A TextMate grammar run over single lines, as far as the grammar of scenarios goes: match, begin to the end of the line, captures and includes."""

import re
from typing import Any

Token = tuple[int, int, str]


class Grammar:
    def __init__(self, grammar: dict[str, Any]) -> None:
        self.grammar = grammar

    def rules(self, patterns: list[dict[str, Any]]) -> list[dict[str, Any]]:
        return [self.grammar["repository"][it["include"].removeprefix("#")] if "include" in it else it for it in patterns]

    def tokens(self, line: str) -> list[Token]:
        """Each range with a scope, from left to right."""
        return sorted(self.within(self.grammar["patterns"], line, 0))

    def within(self, patterns: list[dict[str, Any]], line: str, at: int) -> list[Token]:
        found: list[Token] = []
        rules = self.rules(patterns)
        while at < len(line):
            matches = [(match.start(), order, match, rule) for order, rule in enumerate(rules)
                       if (match := re.compile(rule.get("match") or rule["begin"]).search(line, at))]
            if not matches:
                break
            _, _, match, rule = min(matches, key=lambda it: it[:2])
            if "begin" in rule:
                if rule["end"] != "$":
                    raise AssertionError("only rules to the end of the line are known")
                found += self.captured(match, rule.get("beginCaptures", {}))
                return found + self.within(rule["patterns"], line, match.end())
            if "name" in rule:
                found.append((match.start(), match.end(), rule["name"]))
            found += self.captured(match, rule.get("captures", {}))
            at = max(match.end(), at + 1)
        return found

    def captured(self, match: re.Match[str], captures: dict[str, Any]) -> list[Token]:
        return [(match.start(int(group)), match.end(int(group)), it["name"]) for group, it in captures.items()
                if match[int(group)] is not None]


def scope_at(tokens: list[Token], at: int) -> str:
    """The scope of the innermost range at a column, or nothing."""
    there = [token for token in tokens if token[0] <= at < token[1]]
    return min(there, key=lambda token: token[1] - token[0])[2] if there else ""
