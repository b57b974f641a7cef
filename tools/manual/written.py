"""The manual page and the completion, as texts."""

HEAD = """.\\" Written by tools/manual from the program's help.
.TH RECORDCTL 1
.SH NAME
recordctl \\- {about}
.SH SYNOPSIS
.B recordctl
.I COMMAND
[WORD ...]
.SH DESCRIPTION
A record store in the manner of the FoundationDB Record Layer, over a database of its own, which ends
with the program. The texts that the commands read, and the lines that they print, are described in
docs/guide/FORMATS.md.
.SH COMMANDS
"""
FOOT = """.SH EXIT STATUS
0, or 1 with the line of a fault on standard error (without one where output can't be written), or 2
where the command line isn't taken, and for help.
.SH FILES
A FILE that isn't named is standard input.
"""
BASH = """# Written by tools/manual from the program's help: completion for bash.
_recordctl() {
    local word=${COMP_WORDS[COMP_CWORD]} options=
    if [ "$COMP_CWORD" -eq 1 ]; then
        COMPREPLY=($(compgen -W "%s --help --version" -- "$word"))
        return
    fi
    case ${COMP_WORDS[1]} in
%s    esac
    case $word in
    -*) COMPREPLY=($(compgen -W "$options --help" -- "$word")) ;;
    *) COMPREPLY=($(compgen -f -- "$word")) ;;
    esac
}
complete -o filenames -F _recordctl recordctl
"""


def escaped(text):
    """A text as troff has it."""
    return text.replace("\\", "\\e").replace("-", "\\-")


def paragraph(words, about):
    """What something is for."""
    return f".TP\n.B {escaped(words)}\n{escaped(about)}\n"


def section(command):
    """What is told of a command."""
    rows = [it for it in command.takes + command.options if it[0] != "--help"]
    return f".SS {escaped(command.form)}\n{escaped(command.about)}.\n" + "".join(paragraph(*it) for it in rows)


def page(whole, commands):
    """The manual page."""
    about = whole.about[0].lower() + whole.about[1:]
    return HEAD.format(about=escaped(about)) + "".join(map(section, commands)) + FOOT


def completion(commands):
    """The completion for bash."""
    cases = ""
    for command in commands:
        options = " ".join(it.split()[0] for it, _ in command.options if it.startswith("--") and it != "--help")
        cases += f'    {command.name}) options="{options}" ;;\n'
    return BASH % (" ".join(it.name for it in commands), cases)
