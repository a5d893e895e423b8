"""Completion of command lines in shells, from the pages of help."""

BASH = """\
# Completion for replaycheck, in bash.
_replaycheck() {{
  local word=${{COMP_WORDS[COMP_CWORD]}} options
  COMPREPLY=()
  if [ "$COMP_CWORD" = 1 ]; then
    mapfile -t COMPREPLY < <(compgen -W '{names}' -- "$word")
    return
  fi
  case ${{COMP_WORDS[1]}} in
{cases}
    *) return ;;
  esac
  [[ $word != -* ]] || mapfile -t COMPREPLY < <(compgen -W "$options" -- "$word")
}}
complete -o default -F _replaycheck replaycheck
"""
ZSH = """\
#compdef replaycheck
# Completion for replaycheck, in zsh.
local -a commands options
commands=(
{commands}
)
if (( CURRENT == 2 )); then
  _describe 'command' commands
  return
fi
case $words[2] in
{cases}
esac
if [[ $PREFIX == -* ]]; then
  compadd -- $options
else
  _files
fi
"""


def completions(helps):
    """The files of three shells, by their paths below the folder share."""
    named = [told for told in helps if told.name]
    return {"bash-completion/completions/replaycheck": bash(named), "zsh/vendor-completions/_replaycheck": zsh(named),
            "fish/vendor_completions.d/replaycheck.fish": fish(named)}


def bash(named):
    cases = "\n".join(f"    {told.name}) options='{' '.join(told.options)}' ;;" for told in named)
    return BASH.format(names=" ".join(told.name for told in named), cases=cases)


def zsh(named):
    commands = "\n".join(f"  {quoted(told.name + ':' + told.summary)}" for told in named)
    return ZSH.format(commands=commands, cases="\n".join(f"  {told.name}) options=({' '.join(told.options)}) ;;" for told in named))


def fish(named):
    lines = ["# Completion for replaycheck, in fish."]
    for told in named:
        lines.append(f"complete -c replaycheck -n __fish_use_subcommand -f -a {told.name} -d {quoted(told.summary)}")
        lines += [f"complete -c replaycheck -n '__fish_seen_subcommand_from {told.name}' -l {option[2:]}" for option in told.options]
    return "\n".join(lines) + "\n"


def quoted(text):
    """A text as one word of zsh or fish."""
    return "'" + text.replace("'", r"'\''") + "'"
