#!/usr/bin/env python3
"""Prints the completions of vcnet for a shell: tools/lint/completions.py bash|zsh|fish.

They are made of the texts of crates/vc_words/src/definition.rt, as the man page is. tools/install puts them in their places.

Made with rattle-kit-13f, logic dac8208d650f15bf.
"""
import re
import sys

import man


def plain(text):
    """The text without the marks that a shell would read."""
    return re.sub(r"[`'\"\[\]\\:]", "", text)


def bash(commands):
    names = " ".join(name for name, *_ in commands)
    cases = "\n".join(f'    {name}) words="{" ".join(f"--{it[0]}" for it in rows)}" ;;' for name, _, _, rows in commands)
    numbers = "|".join(sorted({f"--{it[0]}" for *_, rows in commands for it in rows if it[1] == "N"}))
    return f"""# Completions of vcnet for bash.
_vcnet() {{
  local now=${{COMP_WORDS[COMP_CWORD]}} before=${{COMP_WORDS[COMP_CWORD-1]}} words=
  if [ "$COMP_CWORD" = 1 ]; then
    COMPREPLY=($(compgen -W "{names} help --help --version" -- "$now"))
    return
  fi
  case $before in {numbers}) COMPREPLY=(); return ;; esac
  case ${{COMP_WORDS[1]}} in
{cases}
  esac
  case $now in
    -*) COMPREPLY=($(compgen -W "$words --help" -- "$now")) ;;
    *) COMPREPLY=($(compgen -f -- "$now")) ;;
  esac
}}
complete -o filenames -F _vcnet vcnet
"""


def zsh_option(name, takes, text, *_):
    value = {"N": ":number:", "FILE": ":file:_files"}.get(takes, "")
    return f"'--{name}[{plain(text)}]{value}'"


def zsh(commands):
    listed = "\n".join(f"    '{name}:{plain(about)}'" for name, about, *_ in commands)
    cases = "\n".join(f"    {name}) _arguments {' '.join(zsh_option(*it) for it in rows)} '*:network:_files' ;;" for name, _, _, rows in commands)
    return f"""#compdef vcnet
# Completions of vcnet for zsh.
_vcnet() {{
  local -a commands
  commands=(
{listed}
  )
  if (( CURRENT == 2 )); then
    _describe command commands
    return
  fi
  shift words
  (( CURRENT-- ))
  case $words[1] in
{cases}
  esac
}}
_vcnet "$@"
"""


def fish(commands):
    lines = ["# Completions of vcnet for fish.", "complete -c vcnet -n __fish_use_subcommand -f"]
    for name, about, _, rows in commands:
        lines.append(f"complete -c vcnet -n __fish_use_subcommand -a {name} -d '{plain(about)}'")
        for option, takes, text, *_ in rows:
            value = {"N": " -x", "FILE": " -r"}.get(takes, "")
            lines.append(f"complete -c vcnet -n '__fish_seen_subcommand_from {name}' -l {option}{value} -d '{plain(text)}'")
    return "\n".join(lines) + "\n"


def main():
    shells = {"bash": bash, "zsh": zsh, "fish": fish}
    if len(sys.argv) != 2 or sys.argv[1] not in shells:
        return __doc__
    print(shells[sys.argv[1]](man.commands(man.text_of(man.SOURCE))[1:]), end="")


if __name__ == "__main__":
    sys.exit(main())
