"""Completions for bash, zsh and fish, from the rows of `--help`. Each asks at every word which rows still fit."""

from tools.users.usage import OPTIONS, Usage, is_file, meaning_of, names_of


def quoted(text: str) -> str:
    return "'" + text.replace("'", "'\\''") + "'"


def other_files(usage: Usage) -> list[str]:
    """The names of files but for meshes and lengths."""
    return [name for name in names_of(usage) if is_file(name) and name not in ("M", "L")]


BASH = """\
# bash completion for @NAME@. Made from its help text.
_@NAME@() {
    local cur=${COMP_WORDS[COMP_CWORD]} row word at fits count
    local -a names rows=(
@ROWS@
    )
    COMPREPLY=()
    for row in "${rows[@]}"; do
        read -ra names <<< "$row"
        ((COMP_CWORD <= ${#names[@]})) || continue
        fits=yes
        for ((at = 1; at < COMP_CWORD; at++)); do
            word=${names[at - 1]}
            [[ ${#word} -le 2 || $word == "${COMP_WORDS[at]}" ]] || fits=
        done
        [[ $fits ]] || continue
        word=${names[COMP_CWORD - 1]} count=${#COMPREPLY[@]}
        case $word in
            L) mapfile -t -O $count COMPREPLY < <(compgen -W unit -- "$cur"; compgen -f -- "$cur") ;;
            M) mapfile -t -O $count COMPREPLY < <(compgen -f -X '!*.off' -- "$cur"; compgen -d -- "$cur") ;;
            @FILES@) mapfile -t -O $count COMPREPLY < <(compgen -f -- "$cur") ;;
            ? | ??) ;;
            *) mapfile -t -O $count COMPREPLY < <(compgen -W "$word" -- "$cur") ;;
        esac
    done
    ((${#COMPREPLY[@]} < 2)) || mapfile -t COMPREPLY < <(printf '%s\\n' "${COMPREPLY[@]}" | sort -u)
}
complete -o filenames -F _@NAME@ @NAME@
"""

ZSH = """\
#compdef @NAME@
# zsh completion for @NAME@. Made from its help text.
local row word at fits
local -a rows names found
local -A meanings seen
rows=(
@ROWS@
)
meanings=(
@MEANINGS@
)
for row in $rows; do
    names=(${=row%%:*})
    ((CURRENT - 1 <= $#names)) || continue
    fits=yes
    for ((at = 2; at < CURRENT; at++)); do
        word=$names[at-1]
        [[ $#word -le 2 || $word == $words[at] ]] || fits=
    done
    [[ -n $fits ]] || continue
    word=$names[CURRENT-1]
    ((CURRENT == 2)) && { found+=("$word:${row#*:}"); continue }
    [[ -z $seen[$word] ]] || continue
    seen[$word]=1
    case $word in
        M) _files -g '*.off(-.)' -X "$meanings[M]" ;;
        L) found+=(unit:'each edge has the length 1'); _files -X "$meanings[L]" ;;
        @FILES@) _files -X "$meanings[$word]" ;;
        ?|??) _message "$meanings[$word]" ;;
        *) found+=("$word:${row#*:}") ;;
    esac
done
(($#found)) && _describe -t words word found
"""

FISH = """\
# fish completion for @NAME@. Made from its help text.
function __@NAME@_next
    set -l given (commandline -opc)[2..-1]
    set -l place (math (count $given) + 1)
    for row in \\
@ROWS@
        set -l parts (string split '|' -- $row)
        set -l names (string split ' ' -- $parts[1])
        test $place -le (count $names); or continue
        set -l fits yes
        for at in (seq (count $given))
            test (string length -- $names[$at]) -le 2 -o $names[$at] = $given[$at]; or set fits no
        end
        test $fits = yes; or continue
        switch $names[$place]
            case M
                __fish_complete_suffix .off
            case L
                printf 'unit\\teach edge has the length 1\\n'
                __fish_complete_suffix .len
            case @FILES@
                __fish_complete_path
            case '?' '??'
            case '*'
                printf '%s\\t%s\\n' $names[$place] $parts[2]
        end
    end
end
complete -c @NAME@ -f -a '(__@NAME@_next)'
"""


def filled(text: str, **parts: str) -> str:
    for name, part in parts.items():
        text = text.replace(f"@{name}@", part)
    return text


def bash(usage: Usage, name: str) -> str:
    rows = "\n".join("        " + quoted(" ".join(row.words)) for row in usage.rows + OPTIONS)
    return filled(BASH, NAME=name, ROWS=rows, FILES=" | ".join(other_files(usage)))


def zsh(usage: Usage, name: str) -> str:
    rows = "\n".join("    " + quoted(f"{' '.join(row.words)}:{row.what}") for row in usage.rows + OPTIONS)
    meanings = "\n".join(f"    {it} {quoted(meaning_of(usage, it))}" for it in names_of(usage))
    return filled(ZSH, NAME=name, ROWS=rows, MEANINGS=meanings, FILES="|".join(other_files(usage)))


def fish(usage: Usage, name: str) -> str:
    rows = " \\\n".join("        " + quoted(f"{' '.join(row.words)}|{row.what}") for row in usage.rows + OPTIONS)
    return filled(FISH, NAME=name, ROWS=rows, FILES=" ".join(other_files(usage)))
