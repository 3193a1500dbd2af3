"""The words of the command line: the questions, their options, and what completes them."""
from __future__ import annotations

import argparse
import sys
from typing import Any, NamedTuple, NoReturn, Optional, Sequence

from lib import labels, manifests
from lib.reading import Bad
from lib.words import Once

from .statuses import BAD_WORDS

# What a line of `list` may be of.
BY = ("pod", "workload", "namespace")
TABLES = ("table", "json", "markdown")
DRAWN = (*TABLES, "dot", "html")
CHANGES, STATE = ("--add", "--remove"), ("--state",)


class Question(NamedTuple):
    """A question: what it asks, the words that stand by their place, its own options, and its forms."""

    about: str
    places: tuple[str, ...]
    options: tuple[str, ...]
    forms: tuple[str, ...]


QUESTIONS = {
    "diff": Question("which connections a change opens and shuts", (), ("--add", "--remove", "--state-after", "--node", "--strict"), DRAWN),
    "list": Question("what is open", (), ("--from", "--to", "--port", "--by", "--add", "--remove", "--node", "--strict"), DRAWN),
    "why": Question("why a packet passes or doesn't, half by half", ("FROM", "TO", "PROTOCOL/PORT"), (*CHANGES, "--strict"), TABLES),
    "lint": Question("what policies say that nobody can mean", (), CHANGES, TABLES),
    "check": Question("whether expectations hold", ("EXPECTATIONS",), (*CHANGES, "--strict"), TABLES),
    "replay": Question("which flows that were seen would be dropped", ("FLOWS",), (*CHANGES, "--state-after", "--strict"), TABLES),
}
# What each option takes, what it is for, and whether it may stand more than once.
OPTIONS = {
    "--state": ("FILE", "the cluster's objects, - for standard input; kubectl is asked without it", False),
    "--save": ("FILE", "keeps what kubectl was asked for", False),
    "--context": ("NAME", "the context for kubectl", False),
    "--add": ("FILE", "policies that come, - for standard input", True),
    "--remove": ("KIND/NAMESPACE/NAME", "a policy that goes; cnp, ccnp and netpol do for kinds", True),
    "--state-after": ("FILE", "a whole state in place of a change", False),
    "--from": ("X", "only from there: NAMESPACE/NAME, NAMESPACE/*, an entity, an address", False),
    "--to": ("Y", "only to there", False),
    "--port": ("P", "only there: TCP/8443, 53, UDP/8000-8100", False),
    "--by": ("WHAT", "what stands in a row", False),
    "--node": ("NODE", "only connections with an end on the node", False),
    "--format": ("FORM", "the form of the answer", False),
}
END = "NAMESPACE/NAME, NAMESPACE/*, an entity, an address or a prefix"
PLACES = {
    "FROM": END,
    "TO": END,
    "PROTOCOL/PORT": "such as TCP/8443",
    "EXPECTATIONS": "a file of lines such as `web -> pay/ledger TCP 8443 never`, or - for standard input",
    "FLOWS": "what `hubble observe -o jsonpb` prints, or - for standard input",
}
FLAGS = {"--strict": "a policy of the state that isn't read is an error", "--quiet": "nothing of progress"}
COMMON = ("--state", "--save", "--context", "--format")
LABELS = ("--cluster-name", "--labels", "--all-labels")
CHOICES: dict[str, Sequence[str]] = {"--by": BY}
HELP = """usage: wenirako QUESTION [--state FILE] [WORD ..]

{questions}
  play SCRIPT                      plays a script of policyd's, as ./play does
  completion bash                  prints what completes these words in bash

  wenirako QUESTION --help says more; --version what the program is.
  Without --state kubectl is asked, read only. --format table|json|markdown,
  and dot|html for diff and list. - is standard input.

The status is 0 where there is nothing to tell, 3 where there is (a change, a
promise that doesn't hold, a dropped flow, a slip, a denial), 4 where that is
unsure, 1 where the input is bad, 2 where a word is, 70 without an answer."""


class Wide(argparse.HelpFormatter):
    """Help with a line for each word, so that it fits a screen."""

    def __init__(self, prog: str):
        super().__init__(prog, max_help_position=32, width=110)


class Parser(argparse.ArgumentParser):
    """A parser whose complaints begin with the command's name, and end with the status of a bad word."""

    def error(self, message: str) -> NoReturn:
        print(f"{self.prog}: {message}", file=sys.stderr)
        self.print_usage(sys.stderr)
        sys.exit(BAD_WORDS)


def help_text() -> str:
    head = lambda name: f"{name} {' '.join(QUESTIONS[name].places)}".strip()
    return HELP.format(questions="\n".join(f"  {head(name):<32} {it.about}" for name, it in QUESTIONS.items()))


def parser_of(command: str, name: str) -> Parser:
    """The parser of a question's words."""
    question = QUESTIONS[name]
    parser = Parser(
        prog=command, usage=f"{command} {name} {' '.join([*question.places, '[--state FILE]', '[WORD ..]'])}", description=f"Asks {question.about}.", allow_abbrev=False, formatter_class=Wide
    )
    for place in question.places:
        parser.add_argument(dest_of(place), metavar=place, help=PLACES[place])
    for option in (*COMMON, *question.options):
        if option in FLAGS:
            parser.add_argument(option, action="store_true", help=FLAGS[option])
            continue
        metavar, about, is_many = OPTIONS[option]
        how: dict[str, Any] = {"action": "append", "default": []} if is_many else {"action": Once}
        listed = question.forms if option == "--format" else CHOICES.get(option)
        choices: dict[str, Any] = {"choices": listed, "default": listed[0]} if listed else {}
        parser.add_argument(option, metavar=metavar, help=f"{about}: {', '.join(listed)}" if listed else about, **how, **choices)
    parser.add_argument("--quiet", action="store_true", help=FLAGS["--quiet"])
    labels.add_words(parser)
    return parser


def dest_of(place: str) -> str:
    return place.lower().replace("/", "_")


def parsed(command: str, name: str, words: Sequence[str]) -> argparse.Namespace:
    """The words of a question; words that don't fit end this with the status 2."""
    found = parser_of(command, name).parse_args(list(words))
    wrong = wrong_together(name, found)
    if wrong:
        parser_of(command, name).error(wrong)
    return found


def wrong_together(name: str, words: argparse.Namespace) -> Optional[str]:
    """What is wrong with words that don't fit each other, or None."""
    value = lambda option: getattr(words, option.lstrip("-").replace("-", "_"), None)
    if value("--state") and (value("--save") or value("--context")):
        return "--state names a file, so kubectl isn't asked: --save and --context have nothing to do"
    if value("--state-after") and (value("--add") or value("--remove")):
        return "--state-after is a whole state: --add and --remove would change another one"
    if name == "diff" and not (value("--state-after") or value("--add") or value("--remove")):
        return "nothing to change: --add FILE, --remove KIND/NAMESPACE/NAME or --state-after FILE"
    if [*(value(it) for it in ("--state", "--state-after", "expectations", "flows")), *(value("--add") or [])].count("-") > 1:
        return "- is standard input, which can be read once"
    return wrong_form(words)


def wrong_form(words: argparse.Namespace) -> Optional[str]:
    """What is wrong with a word by itself, or None."""
    from .resolving import one_port, port_range

    try:
        labels.choice(words)
        if getattr(words, "port", None) is not None:
            port_range(words.port, "--port")
        if getattr(words, "protocol_port", None) is not None:
            one_port(words.protocol_port, "PROTOCOL/PORT")
        for it in getattr(words, "remove", None) or []:
            manifests.named_by(it)
    except Bad as wrong:
        return str(wrong)
    return None


# Completion.

BASH = """# What completes the words of wenirako in bash: eval "$(wenirako completion bash)"
_wenirako() {{
    local word="${{COMP_WORDS[COMP_CWORD]}}" before="${{COMP_WORDS[COMP_CWORD-1]}}" words=""
    if [ "$COMP_CWORD" = 1 ]; then COMPREPLY=($(compgen -W "{questions} play completion --help --version" -- "$word")); return; fi
    if [ "$COMP_CWORD" = 2 ] && [ "$before" = completion ]; then COMPREPLY=(bash); return; fi
    case "$before" in
    {files}) COMPREPLY=($(compgen -f -- "$word")); return ;;
{choices}    esac
    case "${{COMP_WORDS[1]}}" in
{options}    esac
    if [ "${{word:0:1}}" = - ]; then COMPREPLY=($(compgen -W "$words" -- "$word")); else COMPREPLY=($(compgen -f -- "$word")); fi
}}
complete -o filenames -F _wenirako wenirako ./wenirako kubectl-wenirako
"""


def options_of(name: str) -> list[str]:
    """All options of a question."""
    return [*COMMON, *QUESTIONS[name].options, "--quiet", *LABELS, "--help"]


def completion() -> str:
    """What bash reads to complete the words."""
    listed: dict[str, Sequence[str]] = {**CHOICES, "--format": DRAWN}
    files = "|".join(option for option, (metavar, _, _) in OPTIONS.items() if metavar == "FILE")
    choices = "".join(f'    {option}) COMPREPLY=($(compgen -W "{" ".join(values)}" -- "$word")); return ;;\n' for option, values in listed.items())
    known = {**{name: options_of(name) for name in QUESTIONS}, "play": ["--prove", "--help", "--version"]}
    options = "".join(f'    {name}) words="{" ".join(each)}" ;;\n' for name, each in known.items())
    return BASH.format(questions=" ".join(QUESTIONS), files=files, choices=choices, options=options)
