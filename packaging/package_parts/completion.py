"""Completion of the words of a program, for bash and for zsh."""
from __future__ import annotations

from typing import Iterable, List, Sequence

from .programs import Argument, Form, Option, Program

MADE = "made by packaging/package of its --help"

BASH = """\
# Completion of {name} for bash, {made}.
{function}() {{
    local word=${{COMP_WORDS[COMP_CWORD]}} command='' at=0 words='' place
    COMPREPLY=()
    for ((place = 1; place < COMP_CWORD; place++)); do
        case ${{COMP_WORDS[place]}} in
{steps}
        esac
    done
    case $command:$at:$word in
{places}
    esac
    mapfile -t COMPREPLY < <(compgen -W "$words" -- "$word")
}}
complete -F {function} {name}
"""
PATHS = "compopt -o default 2>/dev/null; return 0"

ZSH = """\
#compdef {name}
# Completion of {name} for zsh, {made}.
{function}() {{
    local state
    _arguments -C {words}
{places}}}
{function} "$@"
"""


def function_of(program: Program) -> str:
    return "_" + program.name.replace("-", "_")


def flags_of(options: Iterable[Option]) -> List[str]:
    return [flag for option in options for flag in option.flags]


def names_of(program: Program) -> List[str]:
    """The commands, and the one of `clap` that prints help."""
    return [it.name for it in program.longest() if it.name] + (["help"] if program.has_help_command() else [])


# ---- bash


def case(pattern: str, does: str) -> str:
    return f"        {pattern}) {does} ;;"


def replied(words: Sequence[str]) -> str:
    return f"words='{' '.join(words)}'"


def steps_of(program: Program) -> List[str]:
    """What each word before the completed one is: an option, with the word after it, a command or an argument."""
    options = [*program.options, *(option for form in program.commands for option in form.options)]
    skipped = []
    for is_path, does in ((False, "return 0"), (True, f"{{ {PATHS}; }}")):
        valued = {flag for option in options if option.value and option.is_path() == is_path for flag in option.flags}
        if valued:
            skipped.append(case("|".join(sorted(valued)), f"((++place < COMP_CWORD)) || {does}"))
    counted = "((++at))"
    if program.commands:
        counted = f"if [[ $command ]]; then {counted}; else command=${{COMP_WORDS[place]}}; fi"
    return [f"    {it}" for it in [*skipped, case("-*", ":"), case("*", counted)]]


def places_of(program: Program) -> List[str]:
    """What may stand at a place: these words, or a path."""
    made: List[str] = []
    if program.commands:
        made += [case(":0:-*", replied(flags_of(program.options))), case(":0:*", replied(names_of(program)))]
    for form in program.longest():
        made.append(case(f"{form.name}:*:-*", replied(flags_of(form.options or program.options))))
        for place, argument in enumerate(form.placed()):
            pattern = f"{form.name}:{'*' if argument.is_last else place}:*"
            if argument.words():
                made.append(case(pattern, replied(argument.words())))
            elif argument.is_path():
                made.append(case(pattern, PATHS))
    if program.has_help_command():
        made.append(case("help:0:*", replied(names_of(program)[:-1])))
    return made


def for_bash(program: Program) -> str:
    steps, places = "\n".join(steps_of(program)), "\n".join(places_of(program))
    return BASH.format(name=program.name, made=MADE, function=function_of(program), steps=steps, places=places)


# ---- zsh


def quoted(text: str) -> str:
    return "'" + text.replace("'", "'\\''") + "'"


def described(text: str) -> str:
    """The help of something, in which no character ends it early."""
    return text.translate({ord(it): f"\\{it}" for it in '[]:"'})


def zsh_option(option: Option) -> List[str]:
    """What `_arguments` is told of an option, for each of its flags."""
    value = f":{option.value}:{'_files' if option.is_path() else ' '}" if option.value else ""
    others = f"({' '.join(option.flags)})" if len(option.flags) > 1 else ""
    about = f"[{described(option.about)}]" if option.about else ""
    return [quoted(f"{others}{flag}{about}{value}") for flag in option.flags]


def zsh_argument(place: int, argument: Argument) -> str:
    words = f"({' '.join(argument.words())})" if argument.words() else " "
    return quoted(f"{'*' if argument.is_last else place}:{argument.name}:{'_files' if argument.is_path() else words}")


def zsh_words(program: Program, form: Form) -> str:
    options = [it for option in form.options or program.options for it in zsh_option(option)]
    return " ".join([*options, *(zsh_argument(i + 1, it) for i, it in enumerate(form.placed()))])


def zsh_commands(program: Program) -> str:
    """The words of a program with commands: those after the command are the command's own."""
    about = {it.name: it.about for it in program.longest()}
    listed = [f'{it}\\:"{described(about.get(it) or "Print help")}"' for it in names_of(program)]
    options = [it for option in program.options for it in zsh_option(option)]
    return " ".join([*options, quoted(f"1:command:(({' '.join(listed)}))"), quoted("*::words:->words")])


def zsh_places(program: Program) -> str:
    """What may stand after a command."""
    made = [case(f"words:{it.name}", f"_arguments {zsh_words(program, it)}") for it in program.longest()]
    if program.has_help_command():
        made.append(case("words:help", f"_arguments {quoted('1:command:(' + ' '.join(names_of(program)[:-1]) + ')')}"))
    return "\n".join(["    case $state:$words[1] in", *made, "    esac\n"])


def for_zsh(program: Program) -> str:
    words = zsh_commands(program) if program.commands else zsh_words(program, program.longest()[0])
    places = zsh_places(program) if program.commands else ""
    return ZSH.format(name=program.name, made=MADE, function=function_of(program), words=words, places=places)
