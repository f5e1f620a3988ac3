"""Access security files: who may read and write the variables of which group."""
import re
from dataclasses import dataclass, field
from typing import NamedTuple

from rules import RIGHTS, Fault
from wire import is_word

MOST_GROUPS, MOST_RULES, MOST_NAMES = 4_096, 4_096, 65_536
DEFAULT = "DEFAULT"
TOKEN = re.compile(r"""(?P<word>[A-Za-z0-9_\-+:.\[\]<>;]+)|"(?P<quoted>[^"\n]*)"|(?P<Unclosed>")|#[^\n]*"""
                   r"|(?P<sign>[(){},])|[ \t\r\n]|(?P<BadByte>.)", re.DOTALL)
CALCULATED = re.compile("CALC|INP[A-U]")
UNSERVED = re.compile("METHOD|AUTHORITY|PROTOCOL")


class Token(NamedTuple):
    """A word, what stands in quotes, a sign, the end, or what is no token: its kind is the cause then."""
    kind: str
    text: str
    line: int


class Grant(NamedTuple):
    """Rights, and whether writes are recorded."""
    right: int = 0
    recorded: bool = False


@dataclass
class Rule:
    level: int
    grant: Grant
    users: list = field(default_factory=list)
    hosts: list = field(default_factory=list)


class Access:
    """Users and hosts in groups, and the rules of security groups, each by its name."""

    def __init__(self):
        self.users, self.hosts, self.rules = {}, {}, {}

    def granted(self, user, host, group, level):
        """What the user on the host may do with fields of the level in the group."""
        best = Grant()
        for rule in self.rules.get(group, self.rules.get(DEFAULT, [])):
            if rule.level >= level and self.speaks_to(rule, user, host) and rule.grant.right > best.right:
                best = rule.grant
        return best

    def speaks_to(self, rule, user, host):
        users = [name for group in rule.users for name in self.users[group]]
        hosts = [name.lower() for group in rule.hosts for name in self.hosts[group]]
        return (not rule.users or user in users) and (not rule.hosts or host.lower() in hosts)


def tokens(text):
    line = 1
    for found in TOKEN.finditer(text):
        if found.lastgroup:
            yield Token(found.lastgroup, found[found.lastgroup], line)
        line += found[0].count("\n")
    yield Token("end", "", line)


def no_keyword(token):
    """The word is no keyword that may stand where it does."""
    if CALCULATED.fullmatch(token.text):
        return Fault(token.line, "Calculated")
    return Fault(token.line, "Unserved" if UNSERVED.fullmatch(token.text) else "UnknownWord")


class Reader:
    """Takes a file apart, token by token."""

    def __init__(self, text):
        self.tokens = list(tokens(text))
        self.access = Access()
        self.rule_count = self.name_count = 0

    def take(self, *kinds):
        """The next token, which has to be of one of these kinds."""
        token = self.tokens[0]
        if token.kind in kinds:
            return self.tokens.pop(0)
        cause = {"end": "Unfinished", "Unclosed": "Unclosed", "BadByte": "BadByte"}
        raise Fault(token.line, cause.get(token.kind, "Unexpected"))

    def is_next(self, sign):
        """Whether the sign stands next; it is taken then."""
        is_there = self.tokens[0][:2] == ("sign", sign)
        if is_there:
            self.tokens.pop(0)
        return is_there

    def sign(self, *signs):
        token = self.take("sign")
        if token.text not in signs:
            raise Fault(token.line, "Unexpected")
        return token.text

    def name(self):
        token = self.take("word", "quoted")
        if not is_word(token.text):
            raise Fault(token.line, "BadName")
        return token

    def meaning(self, meanings, cause):
        token = self.take("word")
        if token.text not in meanings:
            raise Fault(token.line, cause)
        return meanings[token.text]

    def read(self):
        tables = {"UAG": self.access.users, "HAG": self.access.hosts, "ASG": self.access.rules}
        while self.tokens[0].kind != "end":
            keyword = self.take("word")
            if keyword.text not in tables:
                raise no_keyword(keyword)
            table = tables[keyword.text]
            self.sign("(")
            name = self.name()
            if name.text in table or len(table) >= MOST_GROUPS:
                raise Fault(name.line, "Twice" if name.text in table else "TooMany")
            self.sign(")")
            table[name.text] = []
            if self.is_next("{"):
                (self.rules if keyword.text == "ASG" else self.members)(table[name.text])
        return self.access

    def put(self, name, names):
        if self.name_count >= MOST_NAMES:
            raise Fault(name.line, "TooMany")
        self.name_count += 1
        names.append(name.text)

    def members(self, names):
        """A list, which may be empty."""
        if self.is_next("}"):
            return
        self.put(self.name(), names)
        while self.sign(",", "}") == ",":
            self.put(self.name(), names)

    def keywords(self):
        """The keywords up to `}`."""
        while not self.is_next("}"):
            if self.tokens[0].kind == "sign":
                raise Fault(self.tokens[0].line, "Unexpected")
            yield self.take("word")

    def rules(self, rules):
        for keyword in self.keywords():
            if keyword.text != "RULE":
                raise no_keyword(keyword)
            if self.rule_count >= MOST_RULES:
                raise Fault(keyword.line, "TooMany")
            self.rule_count += 1
            rules.append(self.head())
            if self.is_next("{"):
                self.parties(rules[-1])

    def head(self):
        self.sign("(")
        level = self.meaning({"0": 0, "1": 1}, "BadLevel")
        self.sign(",")
        right, recorded = self.meaning(RIGHTS, "BadRight"), False
        if self.sign(",", ")") == ",":
            recorded = self.meaning({"TRAPWRITE": True, "NOTRAPWRITE": False}, "BadRight")
            self.sign(")")
        return Rule(level, Grant(right, recorded))

    def parties(self, rule):
        """Of whom a rule speaks."""
        for keyword in self.keywords():
            if keyword.text not in ("UAG", "HAG"):
                raise no_keyword(keyword)
            self.sign("(")
            self.spoken(keyword.text, rule)
            while self.sign(",", ")") == ",":
                self.spoken(keyword.text, rule)

    def spoken(self, party, rule):
        name = self.name()
        if party == "UAG" and name.text not in self.access.users:
            raise Fault(name.line, "NoUsers")
        if party == "HAG" and name.text not in self.access.hosts:
            raise Fault(name.line, "NoHosts")
        self.put(name, rule.users if party == "UAG" else rule.hosts)


def read_access(text):
    """The file, or a fault with its line."""
    return Reader(text).read()
