"""Command lines that are refused, and what the help says."""
from __future__ import annotations

import os
import re
from typing import Sequence

import pytest

from .case import FOLDER, Case, Like, Program, Stream

SUBCOMMANDS = ("encode", "decode", "align", "crc4", "replay", "check", "serve", "trunk", "satop")


def refused(words: Sequence[str], *parts: str, given: bytes | Stream = b"\x58", name: str | None = None) -> Case:
    """What clap says of a faulty command line, with these words in it."""
    said = "".join(f"(?=.*{re.escape(part)})" for part in (*parts, "For more information, try '--help'."))
    return Case(name or f"command line {' '.join(words)!r}", words, given, b"", Like(f"(?s){said}error: .*"), 2)


REFUSED: list[tuple[list[str], str, str]] = [
    ([], "requires a subcommand", "Usage: e1gw"), (["play"], "unrecognized subcommand 'play'", "Usage: e1gw"),
    (["encode", "--speed", "1"], "unexpected argument '--speed'", "Usage: e1gw encode"),
    (["encode", "speech.al"], "unexpected argument 'speech.al'", "Usage: e1gw encode"),
    (["encode", "--law", "a", "--law", "mu"], "cannot be used multiple times", "Usage: e1gw encode"),
    (["check", "--config", "a", "--config", "b"], "cannot be used multiple times", "Usage: e1gw check"),
    (["replay"], "--config", "Usage: e1gw replay"), (["check"], "--config", "Usage: e1gw check"),
    (["serve"], "--config", "Usage: e1gw serve"), (["replay", "--config"], "a value is required", "--config"),
    (["replay", "--config", "x", "--law", "a"], "unexpected argument '--law'", "Usage: e1gw replay"),
    (["encode", "--payload"], "a value is required", "--payload"),
    (["serve", "--config", "x", "--senders", "all"], "--senders", "any, host, peer"),
    (["serve", "--config", "x", "--senders", "any", "--senders", "host"], "cannot be used multiple times", "--senders"),
    (["serve", "--config", "x", "--repeat", "9"], "--repeat", "9"),
    (["trunk", "--config", "x", "--repeat", "-1"], "unexpected argument '-1'", "Usage: e1gw trunk"),
    (["trunk", "--config", "x", "--end", "65536"], "--end", "65536"),
    *((["satop", "nowhere", "x", option, value], option, value) for option, value in (
        ("--sequence", "65536"), ("--jitter", "501"), ("--size", "31"), ("--size", "1281"), ("--rtp", "128"))),
    (["trunk", "--config", "x", "--end", "0"], "--control", "Usage: e1gw trunk"),
    *((["trunk", "--config", "x", "--sockets", words], f"--sockets {words}: descriptors from 3 on are wanted, as 3-32",
       "Usage: e1gw") for words in ("2-5", "5", "5-", "7-6", "3-65536", "3-4-5", "three")),
    (["serve", "--config", "x", "--control", "y"], "unexpected argument '--control'", "Usage: e1gw serve"),
    (["serve", "--config", "x", "--tell", "y"], "unexpected argument '--tell'", "Usage: e1gw serve"),
    (["check", "--config", "x", "--tell", "y"], "unexpected argument '--tell'", "Usage: e1gw check"),
    (["replay", "--config", "x", "--repeat", "1"], "unexpected argument '--repeat'", "Usage: e1gw replay"),
    (["check", "--config", "x", "--save", "y"], "unexpected argument '--save'", "Usage: e1gw check"),
    (["encode", "--load", "y"], "unexpected argument '--load'", "Usage: e1gw encode"),
    (["serve", "--config", "x", "--seizure-wait", "199"], "--seizure-wait", "199"),
    (["trunk", "--config", "x", "--seizure-wait", "8001"], "--seizure-wait", "8001"),
    (["encode", "--seizure-wait", "200"], "unexpected argument '--seizure-wait'", "Usage: e1gw encode"),
    (["replay", "--config", "x", "--senders", "any"], "unexpected argument '--senders'", "Usage: e1gw replay"),
    (["check", "--config", "x", "--senders", "any"], "unexpected argument '--senders'", "Usage: e1gw check"),
]
VALUES = [("--law", "A"), ("--codec", "pcma"), ("--codec", "g726"), ("--payload", "128"), ("--payload", "-1"),
          ("--payload", "0x8"), ("--ptime", "15"), ("--ssrc", "4294967296"), ("--sequence", "65536"),
          ("--timestamp", "4294967296"), ("--timestamp", "")]


@pytest.mark.parametrize("case", [
    *(refused(*row) for row in REFUSED),
    *(refused([subcommand, f"{option}={value}"], option, name=f"command line {subcommand} {option}={value}")
      for subcommand in ("encode", "decode") for option, value in VALUES),
    Case("command line with a word that is not text", ["encode", os.fsdecode(b"\xFF")], b"\x58", b"",
         "error: the command line is not text\n", 2),
    refused(["replay", "--config", "no-such-file", "--x"], "unexpected argument '--x'", given=FOLDER,
            name="faults of the command line come first")])
def test_command_line(case: Case, program: Program) -> None:
    assert program.ran(case) == case.wanted


# ---- help ----

# Options: of which subcommands, and words that the help has on each.
OPTIONS = [
    ("encode decode", "law", "a", "mu", "default: a"),
    ("encode decode", "codec", "g711", "g726-16", "g726-24", "g726-32", "g726-40", "default: g711"),
    ("encode decode", "payload", "127", "8", "0", "96", "default"),
    ("encode decode", "ptime", "10", "20", "30", "default: 20"),
    ("encode decode", "ssrc", "4294967295", "default: 0"),
    ("encode decode", "sequence", "65535", "default: 0"),
    ("encode decode", "timestamp", "4294967295", "default: 0"),
    ("replay check serve trunk", "config", "TOML"),
    ("serve", "senders", "any", "host", "peer", "default: any"),
    ("replay check serve trunk", "seizure-wait", "200", "8000", "default: 200"),
    ("replay check serve trunk", "load", "STATE"),
    ("replay serve trunk", "save", "STATE"),
    ("serve trunk", "repeat", "8", "default: 0"),
    ("trunk", "control", "Unix socket", "K records"),
    ("trunk", "end", "FD", "--control"),
    ("trunk", "align", "any offset"),
    ("satop", "from", "HOST:PORT"),
    ("satop", "size", "OCTETS", "32", "1280", "default: 256"),
    ("satop", "jitter", "PACKETS", "0 to 500", "default: 4"),
    ("satop", "rtp", "TYPE", "0 to 127"),
    ("satop", "sequence", "NUMBER", "0 to 65535"),
    ("satop", "fill", "again", "ones", "default: again"),
    ("satop", "clock", "packets", "own", "default: packets"),
    ("replay", "tell", "Unix socket", "told"),
]


def helped(program: Program, *words: str) -> str:
    """A help, whose lines are within 80 columns."""
    out, err, status = program.run(*words)
    text = out.decode()
    assert (err, status, [line for line in text.split("\n") if len(line) > 80]) == ("", 0, [])
    return text


@pytest.mark.parametrize("word", ["--help", "-h", "help"])
def test_help(word: str, program: Program) -> None:
    """It lists the subcommands, and no others."""
    text = helped(program, word)
    block = re.search(r"\nCommands:\n((?:  .*\n)+)", text)
    assert block and sorted(re.findall(r"(?m)^  (\w+)", block[1])) == sorted([*SUBCOMMANDS, "help"])
    assert "Usage: e1gw" in text and "--version" in text


@pytest.mark.parametrize("word", ["--version", "-V"])
def test_version(word: str, program: Program) -> None:
    out, err, status = program.run(word)
    assert re.fullmatch(rb"e1gw [0-9]+(\.[0-9]+)+\n", out) and (err, status) == ("", 0)


@pytest.mark.parametrize("name", SUBCOMMANDS)
@pytest.mark.parametrize("words", ["{} --help", "help {}"])
def test_help_of_a_subcommand(name: str, words: str, program: Program) -> None:
    """Its last line is an example."""
    text = helped(program, *words.format(name).split())
    assert all(part in " ".join(text.split()) for part in (f"Usage: e1gw {name}", "standard input", "standard output"))
    assert f"e1gw {name}" in text.rstrip("\n").split("\n")[-1]


@pytest.mark.parametrize("name", SUBCOMMANDS)
def test_short_help(name: str, program: Program) -> None:
    assert f"Usage: e1gw {name}" in " ".join(helped(program, name, "-h").split())


@pytest.mark.parametrize("option", ["ssrc", "sequence", "timestamp", "ptime"])
def test_option_passed_over(option: str, program: Program) -> None:
    """What decode takes so that one set of options names a stream at both ends, and does not look at, is said to be
    passed over, in one paragraph or where the option is listed."""
    parts = re.split(r"\n\s*\n|\n(?=\s+(?:-\w, )?--[a-z])", helped(program, "decode", "--help"))
    assert any(re.search(r"passe[sd]\s+over", it) and re.search(rf"--{option}\b", it) for it in parts)


@pytest.mark.parametrize("name, option, words", [
    pytest.param(name, option, words, id=f"{name} --{option}") for names, option, *words in OPTIONS
    for name in names.split()])
def test_help_on_an_option(name: str, option: str, words: list[str], program: Program) -> None:
    blocks = re.split(r"\n(?=\s+(?:-\w, )?--[a-z])", helped(program, name, "--help"))
    block = next(" ".join(it.split()) for it in blocks if re.match(rf"\s+--{option}\b", it))
    assert [word for word in words if not re.search(rf"(?<!\w){re.escape(word)}(?!\w)", block)] == [], block
