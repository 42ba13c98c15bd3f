"""The command's man page, and its completions for bash, zsh and fish, made from what it says of itself: `sitjorbe --help` and `sitjorbe COMMAND --help`."""

import re
import subprocess
from typing import NamedTuple

COMMAND = re.compile(r"    sitjorbe ([a-z][\w-]*)\b(.*?)(?:  +(\S.*))?")
OPTION = re.compile(r" {0,4}((?:-\w, )?--[\w-]+)(?: (\S+))?(?:  +(\S.*))?")
IN_USAGE = re.compile(r"(--[a-z][\w-]*)(?: ([A-Z]+|[a-z]+\|[a-z|]+))?")


class Option(NamedTuple):
    names: list
    value: str  # what follows it, "" for nothing
    words: str

    def choices(self):
        """The words that may follow it, where they are named: `right|left`."""
        return self.value.split("|") if "|" in self.value else []


class Command(NamedTuple):
    name: str
    usage: str
    about: str
    options: list
    text: str  # all that its help says

    def names(self):
        return [name for option in self.options for name in option.names]


def options(text):
    """The options of a help: those of its list, with the lines that go on, and those that its first line alone names."""
    found, last = [], None
    for line in text.splitlines()[1:]:
        if head := OPTION.fullmatch(line):
            last = Option(head[1].split(", "), head[2] or "", head[3] or "")
            found.append(last)
        elif last and line.startswith(" " * 20):
            found[-1] = last = last._replace(words=f"{last.words} {line.strip()}")
        else:
            last = None
    named = {name for option in found for name in option.names}
    found += [Option([name], value, "") for name, value in IN_USAGE.findall(text.splitlines()[0]) if name not in named]
    return [*found, Option(["-h", "--help"], "", "say more about the command")]


def said(binary, *words):
    return subprocess.run([binary, *words], stdout=subprocess.PIPE, text=True, check=True).stdout


def read(binary):
    """The commands of a built sitjorbe, and its own help."""
    own, found = said(binary, "--help"), []
    for line in own.splitlines():
        head = COMMAND.fullmatch(line)
        if head and head[1] != "COMMAND":
            text = said(binary, head[1], "--help")
            found.append(Command(head[1], re.match(r"[^:\n]*", text)[0], (head[3] or "").strip(), options(text), text))
    return found, own


# ---- the man page


def roff(text):
    """Text as troff takes it: no line is a request, and a hyphen is one that can be copied."""
    lines = text.replace("\\", "\\e").replace("-", "\\-").splitlines()
    return "\n".join(f"\\&{line}" if line.startswith((".", "'")) else line for line in lines)


def man(commands, own, version):
    title, *rest = own.splitlines()
    lines = [f'.TH SITJORBE 1 "" "sitjorbe {version}" "User Commands"', ".SH NAME", roff(title.replace("sitjorbe: ", "sitjorbe - ")), ".SH SYNOPSIS"]
    for command in commands:
        lines += [f".B {roff(command.usage)}", ".br"]
    lines += [".SH COMMANDS"]
    for command in commands:
        lines += [f".SS {roff(command.name)}", ".nf", roff(command.text.split(": ", 1)[-1].rstrip()), ".fi"]
    status = [line for line in rest if line and not line.startswith(" ")]
    return "\n".join([*lines, ".SH EXIT STATUS", roff("\n".join(status)), ""])


# ---- completions

BASH = """\
# bash completion for sitjorbe
_sitjorbe() {{
    local word=${{COMP_WORDS[COMP_CWORD]}} before=${{COMP_WORDS[COMP_CWORD-1]}} command=${{COMP_WORDS[1]}}
    COMPREPLY=()
    if [[ $COMP_CWORD == 1 ]]; then
        COMPREPLY=($(compgen -W "{names} --help --version" -- "$word"))
        return
    fi
    case "$command $before" in
{values}
    esac
    if [[ $word == -* ]]; then
        case "$command" in
{options}
        esac
    else
        compopt -o filenames 2> /dev/null
        COMPREPLY=($(compgen -f -- "$word"))
    fi
}}
complete -F _sitjorbe sitjorbe
"""


def bash(commands):
    values = [f'        "{command.name} {name}") COMPREPLY=($(compgen -W "{" ".join(option.choices())}" -- "$word")); return ;;'
              for command in commands for option in command.options if option.choices() for name in option.names]
    options = [f'            {command.name}) COMPREPLY=($(compgen -W "{" ".join(command.names())}" -- "$word")) ;;' for command in commands]
    return BASH.format(names=" ".join(command.name for command in commands), values="\n".join(values or ["        *) ;;"]), options="\n".join(options))


ZSH = """\
#compdef sitjorbe
_sitjorbe() {{
    if (( CURRENT == 2 )); then
        local -a commands
        commands=(
{names}
        )
        _describe command commands
        return
    fi
    case $words[2] in
{options}
    esac
}}
_sitjorbe "$@"
"""


def quoted(words):
    """Words for zsh and fish between single quotes, where a colon or a bracket would mean something."""
    return re.sub(r"([:\[\]])", r"\\\1", words.replace("'", "’"))


def zsh(commands):
    names = [f"            '{command.name}:{quoted(command.about)}'" for command in commands]
    options = []
    for command in commands:
        lines = []
        for option in command.options:
            takes = f":value:({' '.join(option.choices())})" if option.choices() else ":file:_files" if option.value == "FILE" else f":{option.value}:" if option.value else ""
            lines += [f"                '*{name}[{quoted(option.words)}]{takes}' \\" for name in option.names]
        options.append("\n".join([f"        {command.name}) shift words; (( CURRENT-- )); _arguments \\", *lines, "                '*:file:_files' ;;"]))
    return ZSH.format(names="\n".join(names), options="\n".join(options))


def fish(commands):
    lines = ["# fish completion for sitjorbe", "complete -c sitjorbe -n __fish_use_subcommand -l help -d 'say how'", "complete -c sitjorbe -n __fish_use_subcommand -l version"]
    for command in commands:
        lines.append(f"complete -c sitjorbe -n __fish_use_subcommand -a {command.name} -d '{command.about.replace(chr(39), '’')}'")
        for option in command.options:
            names = " ".join(f"-l {name[2:]}" if name.startswith("--") else f"-s {name[1:]}" for name in option.names)
            takes = f" -x -a '{' '.join(option.choices())}'" if option.choices() else " -r" if option.value == "FILE" else " -x" if option.value else ""
            lines.append(f"complete -c sitjorbe -n '__fish_seen_subcommand_from {command.name}' {names}{takes} -d '{option.words.replace(chr(39), '’')}'")
    return "\n".join([*lines, ""])
