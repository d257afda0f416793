#!/usr/bin/env python3
"""Writes the completions of abuf's commands and options for bash, zsh and fish, all from one table.

    completions.py [FOLDER]     writes abuf.bash, _abuf and abuf.fish there (tools/completions)

    completions.py /tmp

install.sh puts them where the shells look. The names of the options are those that each command has, as tools/reference.py has
them; the table here adds what they mean and values to offer.
"""

import os

import reference
from abuflib import program, report
from abuflib.report import Fault

FOLDER = os.path.join(program.TOOLS, "completions")
COMMANDS = {
    "render": "write the image of a scene",
    "pick": "write the fragments of one pixel",
    "demo": "draw a demonstration scene of N triangles",
    "sequence": "write an image for each line of a path",
}
# What each option is, and values to offer.
OPTIONS = {
    "size": ("width and height of the image, WxH", "320x240 640x480 1280x960 1920x1080"),
    "samples": ("samples per pixel", "1 2 4 8 16"),
    "threads": ("number of threads, 1 to 64", "1 2 4 8 16 32 64"),
    "nodes": ("most fragments of the pool", "4194304 8388608"),
    "turn": ("the camera's quaternion, a,b,c,d", "1,0,0,0 0,0,1,0 1,0,-1,0 1,0,1,0 1,1,0,0 1,-1,0,0 8,2,-3,0 8,2,3,0"),
    "move": ("shift of the turned scene, x,y,z", "0,0,-4"),
    "focal": ("focal length, at most 16", "1 2"),
    "near": ("distance of the near plane", "0.125 0.0625"),
    "background": ("colour behind all faces, r,g,b", "0,0,0 1,1,1"),
    "maxval": ("greatest value in the image", "255 65535"),
    "bands": ("draw in so many bands of rows", "2 4 8 16 32"),
    "peel": ("draw layer by layer, without a pool", ""),
}


def options_of(command: str) -> list[str]:
    """The options of a command, those without a value too."""
    found = [*reference.options_of(command), *(reference.RENDER_FLAGS if command == "render" else [])]
    unknown = set(found) - set(OPTIONS)
    if unknown:
        raise Fault(f"no text for {', '.join(sorted(unknown))}")
    return found


def bash() -> str:
    options = "\n".join(f'        {command}) options="{" ".join("--" + name for name in options_of(command))}" ;;' for command in COMMANDS)
    values = "\n".join(f'        --{name}) values="{values}" ;;' for name, (_, values) in OPTIONS.items() if values)
    return f"""# Completion of abuf for bash. Written by tools/completions.py.

_abuf() {{
    local cur=${{COMP_WORDS[COMP_CWORD]}} before=${{COMP_WORDS[COMP_CWORD - 1]}} command=${{COMP_WORDS[1]}} options= values= word
    COMPREPLY=()
    if [ "$COMP_CWORD" -eq 1 ]; then
        COMPREPLY=($(compgen -W "{' '.join(COMMANDS)}" -- "$cur"))
        return
    fi
    # An option and its value may be joined by =, which is a word of its own here.
    if [ "$cur" = = ]; then
        cur=
    elif [ "$before" = = ]; then
        before=${{COMP_WORDS[COMP_CWORD - 2]}}
    fi
    case $before in
{values}
    esac
    if [ -n "$values" ]; then
        COMPREPLY=($(compgen -W "$values" -- "$cur"))
        return
    fi
    case $command in
{options}
    esac
    case $cur in
        -*)
            # Each option may be given once.
            for word in "${{COMP_WORDS[@]:2}}"; do
                [ "$word" = "$cur" ] || options=" $options " options=${{options/ $word / }}
            done
            COMPREPLY=($(compgen -W "$options" -- "$cur"))
            ;;
        *) [ "$command" = sequence ] && COMPREPLY=($(compgen -f -X '!*.path' -- "$cur") $(compgen -d -- "$cur")) ;;
    esac
}}
complete -o filenames -F _abuf abuf
"""


def quoted(text: str) -> str:
    return "'" + text.replace("'", "'\\''") + "'"


def zsh() -> str:
    parts = []
    positional = {"pick": "':pixel, X,Y:'", "demo": "':number of triangles:'", "sequence": "':path:_files -g \"*.path\"'"}
    for command in COMMANDS:
        lines = []
        for name in options_of(command):
            text, values = OPTIONS[name]
            offered = f":{name}:({values})" if values else ""
            lines.append(quoted(f"--{name}{'=' if values else ''}[{text}]{offered}"))
        if command in positional:
            lines.append(positional[command])
        body = " \\\n                    ".join(lines)
        parts.append(f"                {command})\n                    _arguments {body}\n                    ;;")
    commands = "\n".join(f"        {quoted(f'{name}:{text}')}" for name, text in COMMANDS.items())
    cases = "\n".join(parts)
    return f"""#compdef abuf
# Completion of abuf for zsh. Written by tools/completions.py.

_abuf() {{
    local context state state_descr line
    typeset -A opt_args
    local -a commands
    commands=(
{commands}
    )
    _arguments -C '1:command:->command' '*::word:->words'
    case $state in
        command) _describe command commands ;;
        words)
            case $line[1] in
{cases}
            esac
            ;;
    esac
}}

_abuf "$@"
"""


def fish() -> str:
    lines = ["# Completion of abuf for fish. Written by tools/completions.py.", "", "complete -c abuf -f"]
    for command, text in COMMANDS.items():
        lines.append(f"complete -c abuf -n __fish_use_subcommand -a {command} -d {quoted(text)}")
    for name, (text, values) in OPTIONS.items():
        having = " ".join(command for command in COMMANDS if name in options_of(command))
        offered = f" -x -a {quoted(values)}" if values else ""
        lines.append(f"complete -c abuf -n '__fish_seen_subcommand_from {having}' -l {name} -d {quoted(text)}{offered}")
    lines.append("complete -c abuf -n '__fish_seen_subcommand_from sequence' -a '(__fish_complete_suffix .path)'")
    return "\n".join(lines) + "\n"


FILES = {"abuf.bash": bash, "_abuf": zsh, "abuf.fish": fish}


def main() -> None:
    parser = report.words(__doc__)
    parser.add_argument("folder", nargs="?", metavar="FOLDER", default=FOLDER)
    folder = parser.parse_args().folder
    for name, text in FILES.items():
        with open(os.path.join(folder, name), "w", encoding="utf-8") as file:
            file.write(text())


if __name__ == "__main__":
    report.end(main)
