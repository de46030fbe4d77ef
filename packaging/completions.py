"""Makes the completions of bash, zsh and fish from what the programs say by `--help`.

Usage: python3 packaging/completions.py PROGRAM FOLDER
"""
import os
import sys
from collections.abc import Callable, Sequence

import helps
from helps import Help, Word
from manual import RECORDER, REPORTER, RUNNER

# The words that are files.
FILES = ("FILE", "ORDER", "PLAN", "FOLDER")
BASH = """\
# Completions of {name} for bash.
_{plain}() {{
    local word="${{COMP_WORDS[COMP_CWORD]}}" command="${{COMP_WORDS[1]}}"
    case "$COMP_CWORD,$command,$word" in
{cases}
    *) mapfile -t COMPREPLY < <(compgen -f -- "$word") ;;
    esac
}}
complete -o filenames -F _{plain} {name}
"""


def quoted(text: str) -> str:
    """A text in single quotes, for zsh and fish."""
    return "'" + text.replace("\\", "\\\\").replace("'", "'\\''") + "'"


def names_of(options: Sequence[Word]) -> str:
    return " ".join(name for option in options for name in option.names)


def bash_case(pattern: str, words: str) -> str:
    """The words that bash offers where the place, the command and the word are like a pattern."""
    return f'    {pattern}) mapfile -t COMPREPLY < <(compgen -W "{words}" -- "$word") ;;'


def bash(name: str, alone: Sequence[Word], commands: Sequence[Help]) -> str:
    """The completions of bash: the commands first, then the options of the command that is there,
    else files."""
    cases = [bash_case(f"*,{command.name},-*", names_of(command.options)) for command in commands]
    if commands:
        names = " ".join(command.name for command in commands)
        cases.insert(0, bash_case("1,*", f"{names} {names_of(alone)}"))
    else:
        cases = [bash_case("*,*,-*", names_of(alone))]
    return BASH.format(name=name, plain=name.replace("-", "_"), cases="\n".join(cases))


def zsh_option(word: Word) -> list[str]:
    """An option as `_arguments` takes it."""
    value = f":{word.value}:{'_files' if word.value in FILES else ' '}" if word.value else ""
    meaning = word.meaning.replace("[", "(").replace("]", ")").replace(":", "\\:")
    return [quoted(f"{name}[{meaning}]{value}") for name in word.names]


def zsh_arguments(indent: str, options: Sequence[Word], end: str) -> list[str]:
    """The lines by which zsh offers options and files."""
    words = [word for option in options for word in zsh_option(option)]
    offered = [f"{indent}    {word} \\" for word in words]
    return [f"{indent}_arguments \\", *offered, f"{indent}    '*:file:_files'{end}"]


def zsh(name: str, alone: Sequence[Word], commands: Sequence[Help]) -> str:
    """The completions of zsh."""
    made = [f"#compdef {name}", f"# Completions of {name} for zsh."]
    if not commands:
        return "\n".join([*made, *zsh_arguments("", alone, ""), ""])
    made.append("local -a commands=(")
    for command in commands:
        about = command.about.replace(":", "\\:")
        made.append(f"    {quoted(f'{command.name}:{about}')}")
    made += [")", "if (( CURRENT == 2 )); then", "    _describe command commands", "    return"]
    made += ["fi", 'case "$words[2]" in']
    for each_command in commands:
        made += [f"{each_command.name})", "    shift words; (( CURRENT-- ))"]
        made += zsh_arguments("    ", each_command.options, " ;;")
    return "\n".join([*made, "esac", ""])


def fish_option(name: str, condition: str, each_word: Word) -> str:
    """An option as fish takes it."""
    words = [
        f"-l {word[2:]}" if word.startswith("--") else f"-s {word[1:]}" for word in each_word.names
    ]
    takes = (" -r" + ("" if each_word.value in FILES else " -f")) if each_word.value else ""
    return f"complete -c {name}{condition} {' '.join(words)}{takes} -d {quoted(each_word.meaning)}"


def fish(name: str, alone: Sequence[Word], commands: Sequence[Help]) -> str:
    """The completions of fish."""
    made = [f"# Completions of {name} for fish."]
    for command in commands:
        about = quoted(command.about)
        made.append(f"complete -c {name} -n __fish_use_subcommand -f -a {command.name} -d {about}")
        condition = f" -n '__fish_seen_subcommand_from {command.name}'"
        made += [fish_option(name, condition, option) for option in command.options]
    first = " -n __fish_use_subcommand" if commands else ""
    made += [fish_option(name, first, word) for word in alone]
    return "\n".join([*made, ""])


# The completions of a shell, by the name of a program, its options and its commands; and the name
# of the file of a program.
Made = Callable[[str, Sequence[Word], Sequence[Help]], str]
SHELLS: dict[str, tuple[Made, str]] = {
    "bash": (bash, "{}"),
    "zsh": (zsh, "_{}"),
    "fish": (fish, "{}.fish"),
}


def write_completions(program: str, folder: str, shell: str, has_recorder: bool = True) -> None:
    """Writes the completions of a shell to a folder."""
    made, file = SHELLS[shell]
    alone, *commands = helps.of_program(program)
    texts = {"wire_up": made("wire_up", alone.options, commands)}
    for script in [*[RECORDER] * has_recorder, REPORTER, RUNNER]:
        name = os.path.basename(script)
        texts[name] = made(name, helps.of_script(script).options, [])
    os.makedirs(folder, exist_ok=True)
    for name, text in texts.items():
        with open(os.path.join(folder, file.format(name)), "w", encoding="utf-8") as each_file:
            each_file.write(text)


if __name__ == "__main__":
    if len(sys.argv) != 3:
        sys.exit(__doc__)
    for each in SHELLS:
        write_completions(os.path.abspath(sys.argv[1]), os.path.join(sys.argv[2], each), each)
