"""The man page and the completions of ./joravelsu, of the same tables as its --help."""
import argparse


def commands_of(parser):
    """The commands, each with its parser and the line on it."""
    forms = next(action for action in parser._actions if isinstance(action, argparse._SubParsersAction))
    told = {action.dest: action.help for action in forms._choices_actions}
    return [(name, part, told[name]) for name, part in forms.choices.items()]


def options_of(parser):
    """The options of a command, each with its words, what stands for its value, and the line on it."""
    for action in parser._actions:
        if action.option_strings:
            value = "" if action.nargs == 0 else action.metavar or "{" + ",".join(action.choices) + "}" if action.choices or action.metavar else ""
            yield action.option_strings, value, action.help or ""


def roff(text):
    text = text.replace("\\", "\\e").replace("-", "\\-")
    return "\\&" + text if text.startswith((".", "'")) else text


def man_page(parser, doc, version):
    """The man page, as roff."""
    first, _, rest = doc.strip().partition("\n")
    lines = [f'.TH JORAVELSU 1 "" "{version}"', ".SH NAME", f"joravelsu \\- {roff(first.rstrip(':, in one go'))}", ".SH SYNOPSIS"]
    for name, part, _ in commands_of(parser):
        lines += [".B joravelsu " + roff(name), roff(" ".join(part.format_usage().split(f"joravelsu {name}", 1)[1].split())), ".br"]
    lines += [".SH DESCRIPTION", ".nf", *map(roff, rest.strip("\n").split("\n")), ".fi"]
    for name, part, told in commands_of(parser):
        lines += [f".SH {roff(name).upper()}", roff(told)]
        for words, value, said in options_of(part):
            lines += [".TP", "\\fB" + roff(", ".join(words)) + "\\fR" + (f" \\fI{roff(value)}\\fR" if value else ""), roff(said)]
    return "\n".join(" ".join(line.split()) if line.startswith("\\fB") else line for line in lines) + "\n"


def completions(parser, shell):
    return {"bash": bash, "zsh": zsh, "fish": fish}[shell]([(name, told, list(options_of(part))) for name, part, told in commands_of(parser)])


def bash(commands):
    cases = "".join(f"    {name}) words='{' '.join(word for words, _, _ in options for word in words)}' ;;\n" for name, _, options in commands)
    return f"""# bash completion of joravelsu
_joravelsu() {{
  local words now=${{COMP_WORDS[COMP_CWORD]}}
  if [ "$COMP_CWORD" = 1 ]; then
    COMPREPLY=($(compgen -W '{' '.join(name for name, _, _ in commands)} --help --version' -- "$now"))
    return
  fi
  case "${{COMP_WORDS[1]}}" in
{cases}  esac
  case "$now" in
    -*) COMPREPLY=($(compgen -W "$words" -- "$now")) ;;
    *) COMPREPLY=($(compgen -f -- "$now")) ;;
  esac
}}
complete -o filenames -F _joravelsu joravelsu
"""


def quoted(text):
    return text.replace("'", "'\\''").replace("[", "\\[").replace("]", "\\]").replace(":", "\\:")


def zsh(commands):
    rows = " ".join(f"'{name}:{quoted(told)}'" for name, told, _ in commands)
    cases = "".join(f"    {name}) _arguments " + " ".join(f"'*{word}[{quoted(said)}]{':' + value.lower().strip('{}') + ':_files' if value else ''}'" for words, value, said in options for word in words)
                    + " '*:file:_files' ;;\n" for name, _, options in commands)
    return f"""#compdef joravelsu
_joravelsu() {{
  if (( CURRENT == 2 )); then
    local -a found=({rows})
    _describe command found
    return
  fi
  local command=$words[2]
  shift words
  (( CURRENT-- ))
  case $command in
{cases}  esac
}}
_joravelsu "$@"
"""


def fish(commands):
    lines = ["# fish completion of joravelsu"]
    for name, told, options in commands:
        lines.append(f"complete -c joravelsu -n __fish_use_subcommand -f -a {name} -d {fish_text(told)}")
        for words, value, said in options:
            flags = " ".join(f"-l {word[2:]}" if word.startswith("--") else f"-s {word[1:]}" for word in words)
            lines.append(f"complete -c joravelsu -n '__fish_seen_subcommand_from {name}' {flags}{' -r' if value else ''} -d {fish_text(said)}")
    return "\n".join(lines) + "\n"


def fish_text(text):
    return "'" + text.replace("\\", "\\\\").replace("'", "\\'") + "'"
