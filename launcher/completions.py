"""Completions of the lines of words for bash, zsh and fish, made from the rows of usage.txt and own.txt."""
import lines

# The words of an installed launcher's own.
OWN = ["--install", "--pack"]


def first_words(rows):
    """Returns each word that a line begins with, once, in the order of the rows."""
    return list(dict.fromkeys(it.keyword[0] for it in rows))


def rows_of(rows, word):
    """Returns the rows whose lines begin with the word."""
    return [it for it in rows if it.keyword[0] == word]


BASH = """# Completions of abt for bash. Each row is a line, as `abt --usage` prints it.
_abt_rows='ROWS'

_abt() {
  local current=${COMP_WORDS[COMP_CWORD]} row words='' place option
  COMPREPLY=()
  if [ "$COMP_CWORD" = 1 ]; then
    words="$(sed 's/ .*//' <<<"$_abt_rows" | sort -u) OWN"
  elif [ "${COMP_WORDS[1]}" = --install ] || [ "${COMP_WORDS[1]}" = --pack ]; then
    mapfile -t COMPREPLY < <(compgen -f -- "$current")
    return
  fi
  while [ "$COMP_CWORD" -gt 1 ] && read -ra row; do
    [ "${row[0]}" = "${COMP_WORDS[1]}" ] || continue
    case ${row[1]-} in
      '' | *:* | -*) place=$((COMP_CWORD - 1)) ;;
      *)
        place=$((COMP_CWORD - 2))
        if [ $place = 0 ]; then words="$words ${row[1]}" && continue; fi
        [ "${row[1]}" = "${COMP_WORDS[2]}" ] || continue
        row=("${row[0]}" "${row[@]:2}")
        ;;
    esac
    for option in "${row[@]}"; do
      case $option in "${COMP_WORDS[COMP_CWORD - 1]}="*) _abt_place "${option#*=}" && return ;; esac
    done
    case ${row[place]-} in
      *:*) case $current in -*) ;; *) _abt_place "${row[place]}" && return ;; esac ;;
    esac
    for option in "${row[@]:1}"; do case $option in --*) words="$words ${option%%=*}" ;; esac; done
  done <<<"$_abt_rows"
  mapfile -t COMPREPLY < <(compgen -W "$words" -- "$current")
}

# completes one word by what its place wants
_abt_place() {
  case $1 in
    file:*) mapfile -t COMPREPLY < <(compgen -f -- "$current") ;;
    word:*:*) mapfile -t COMPREPLY < <(compgen -W "$(cut -d : -f 3- <<<"$1" | tr : ' ')" -- "$current") ;;
  esac
}
complete -o filenames -F _abt abt
"""


def bash(rows):
    """Returns the completions for bash, which read the rows themselves."""
    return BASH.replace("ROWS", "\n".join(map(token_line, rows))).replace("OWN", " ".join(OWN))


def token_line(row):
    """Returns the row as `--usage` prints it."""
    options = [name + (f"={token(place)}" if place else "") for name, place in row.options.items()]
    return " ".join([*row.keyword, *map(token, row.places), *options])


def token(place):
    """Returns the place as `--usage` prints it."""
    return ":".join([place.sort, place.shown, *place.rest])


# ---- zsh


def zsh(rows):
    """Returns the completions for zsh."""
    arms = [arm for word in first_words(rows) if word[0] != "-" for arm in zsh_arm(rows_of(rows, word), word)]
    return "\n".join(
        [
            "#compdef abt",
            "# Completions of abt for zsh.",
            f"if (( CURRENT == 2 )); then compadd -- {' '.join([*first_words(rows), *OWN])}; return; fi",
            "case ${words[2]} in",
            *(f"  {it}" for it in arms),
            "  --install) shift words; (( CURRENT-- )); _arguments ':PREFIX:_files -/' ;;",
            "  --pack) shift words; (( CURRENT-- )); _arguments ':FILE:_files' ;;",
            "esac",
            "",
        ]
    )


def zsh_arm(found, word):
    """Returns the lines of the case for a first word."""
    if len(found[0].keyword) == 1:
        return [f"{word}) shift words; (( CURRENT-- )); {zsh_arguments(found[0])} ;;"]
    seconds = " ".join(it.keyword[1] for it in found)
    inner = " ".join(f"{it.keyword[1]}) {zsh_arguments(it)} ;;" for it in found)
    more = f"shift 2 words; (( CURRENT -= 2 )); case ${{words[1]}} in {inner} esac"
    return [f"{word}) if (( CURRENT == 3 )); then compadd -- {seconds}; else {more}; fi ;;"]


def zsh_arguments(row):
    """Returns the call that completes the words behind a row's keyword."""
    options = [f"'{name}[{name[2:]}]{zsh_place(place) if place else ''}'" for name, place in row.options.items()]
    return " ".join(["_arguments", *(f"'{zsh_place(it)}'" for it in row.places), *options])


def zsh_place(place):
    """Returns what zsh is told of a place."""
    how = {"file": "_files", "word": f"({' '.join(place.rest)})"}.get(place.sort, " ")
    return f":{place.shown}:{how}"


# ---- fish


def fish(rows):
    """Returns the completions for fish."""
    told = ["# Completions of abt for fish.", "complete -c abt -f"]
    told += [f"complete -c abt -n __fish_is_first_token -a '{it}'" for it in [*first_words(rows), *OWN]]
    told += ["complete -c abt -n '__fish_seen_subcommand_from --install --pack' -F"]
    return "\n".join([*told, *(it for row in rows for it in fish_row(row)), ""])


def fish_row(row):
    """Returns the lines for a row."""
    seen = f"__fish_seen_subcommand_from {row.keyword[0]}"
    told = []
    if len(row.keyword) == 2:
        told.append(f"complete -c abt -n '{seen}; and not __fish_seen_subcommand_from {row.keyword[1]}' -a {row.keyword[1]}")
        seen = f"{seen}; and __fish_seen_subcommand_from {row.keyword[1]}"
    if any(it.sort == "file" for it in row.places):
        told.append(f"complete -c abt -n '{seen}' -F")
    for name, place in row.options.items():
        takes = "" if not place else " -r -F" if place.sort == "file" else " -x"
        told.append(f"complete -c abt -n '{seen}' -l {name[2:]}{takes}")
    return told
