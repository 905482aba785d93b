"""Prints farm's manual page, or its completion for bash, out of the parser of its words.

usage: packaging/deb/texts.py CHECKOUT man|completion
"""
from __future__ import annotations

import argparse
import os
import sys

sys.path.insert(0, sys.argv[1])
os.environ.pop("FARM_HOME", None)
os.environ["XDG_STATE_HOME"] = "~/.local/state"

from agent.commands.parser import ENDS, parser  # noqa: E402


def spelled(text: str) -> str:
    """A text as roff has it."""
    text = text.replace("\\", "\\\\").replace("-", "\\-")
    return "\n".join("\\&" + line if line.startswith((".", "'")) else line for line in text.split("\n"))


def verbs() -> dict[str, argparse.ArgumentParser]:
    found = next(each for each in parser()._actions if isinstance(each, argparse._SubParsersAction))
    return dict(found.choices)


def option(verb: argparse.ArgumentParser, action: argparse.Action) -> str:
    """One word of a command, with what it does."""
    words = ", ".join(action.option_strings) or str(action.metavar or action.dest)
    value = f" {action.metavar or action.dest.upper()}" if action.option_strings and action.nargs != 0 else ""
    return f".TP\n\\fB{spelled(words + value)}\\fR\n{spelled(verb._get_formatter()._expand_help(action))}"


def manual() -> None:
    print('.TH FARM 1 "" "jugcress" "Jugcress"\n.SH NAME\nfarm \\- runs commands and builds under leases of cache folders')
    print(".SH SYNOPSIS\n.B farm\n.I COMMAND\n[\\fIOPTION\\fR]...\n.SH COMMANDS")
    for name, verb in verbs().items():
        usage = " ".join(verb.format_usage().removeprefix("usage: ").split())
        print(f".SS {name}\n{spelled(verb.description or name)}.\n.PP\n{spelled(usage)}")
        for action in verb._actions:
            if action.help and action.dest != "help":
                print(option(verb, action))
        if verb.epilog:
            print(f".PP\n{spelled(verb.epilog[0].upper() + verb.epilog[1:])}")
    print(f'.SH "EXIT STATUS"\n{spelled(ENDS)}\n.SH "SEE ALSO"\n/usr/share/doc/jugcress/RUNNING.md,\n.BR farmd (8)')


def completion() -> None:
    print("# bash completion for farm\n_farm() {\n  local cur=${COMP_WORDS[COMP_CWORD]} verb=${COMP_WORDS[1]:-} i\n  COMPREPLY=()")
    print("  for ((i = 2; i < COMP_CWORD; i++)); do [[ ${COMP_WORDS[i]} != -- ]] || { compopt -o default; return; }; done")
    print(f"  if ((COMP_CWORD == 1)); then mapfile -t COMPREPLY < <(compgen -W '{' '.join(verbs())}' -- \"$cur\"); return; fi\n  case $verb in")
    for name, verb in verbs().items():
        options = [word for action in verb._actions for word in action.option_strings if word.startswith("--")]
        print(f"    {name}) [[ $cur != -* ]] || mapfile -t COMPREPLY < <(compgen -W '{' '.join(options)}' -- \"$cur\") ;;")
    print("  esac\n}\ncomplete -o default -F _farm farm")


if __name__ == "__main__":
    manual() if sys.argv[2] == "man" else completion()
