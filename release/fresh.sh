#!/usr/bin/env bash
# Runs in a fresh root, in a folder with a release: see fresh.py. `fresh.sh whole` tries all of it, `fresh.sh old` the
# static program on a system that is too old for the other one. Prints what goes otherwise than is due, and a count.
tried=0 wrong=0
meshes=/usr/share/surfbasis/meshes

# Whether two texts are the same, told by the name of what is tried.
same() {
  tried=$((tried + 1))
  [ "$2" = "$3" ] && return
  wrong=$((wrong + 1))
  printf '%s: due\n%s\ncame\n%s\n' "$1" "${2:0:400}" "${3:0:400}"
}

# Whether a command ends well.
well() {
  local said status
  said=$("${@:2}" 2>&1)
  status=$?
  [ "$status" = 0 ] || printf '%s\n' "${said:0:400}"
  same "$1" "status 0" "status $status"
}

files() {
  find / -xdev \( -path /proc -o -path /dev -o -path /root -o -path /srv -o -path /tmp -o -path /var/cache -o -path /var/log \
    -o -path /var/lib/dpkg -o -path /run \) -prune -o -print | sort
}

basis_of_torus7='cycles 2
total 6
cycle 3 0 1 2 0
cycle 3 0 1 4 0'

main_job() { # COMMAND MESHES
  same "$1 --version" "surf $version" "$($1 --version)"
  same "$1 info" "genus 2" "$($1 info "$2/eight.off" | tail -n 1)"
  $1 lengths "$2/eight.off" 6 > /tmp/eight.len
  well "$1 lengths" cmp /tmp/eight.len "$2/eight.len"
  same "$1 basis" "cycles 4
total 12262957" "$($1 basis "$2/eight.off" /tmp/eight.len | head -n 2)"
  $1 certify "$2/eight.off" /tmp/eight.len > /tmp/eight.cert
  same "$1 check" "valid basis 12262957" "$($1 check "$2/eight.off" /tmp/eight.len /tmp/eight.cert)"
  same "$1 basis unit" "$basis_of_torus7" "$($1 basis "$2/torus7.off" unit)"
  same "$1 on a file that isn't there" "read fault 9" "$($1 info /nowhere 2>&1) $($1 info /nowhere 2> /dev/null; echo $?)"
}

manual() { # COMMAND
  same "man $1, its name" "$1 -$($1 --help | sed -n '1s/^surf://p')" \
    "$(MANWIDTH=200 man "$1" | col -b | sed -n '/^NAME$/{n;s/^[[:blank:]]*//p}' | tr -s ' ')"
  same "man $1, its warnings" "" "$(man --warnings "$1" 2>&1 > /dev/null)"
}

completions() { # COMMAND; words that come behind `COMMAND cut a.off unit 0 `
  cd "$(mktemp -d)" || exit 2
  touch a.off notes.txt
  local due
  due=$("$1" --help | sed -n 's/^ *surf cut M L x \([a-z]*\).*/\1/p' | sort | paste -sd' ')
  same "the cuts of --help" "full .. trim" "$(sed 's/ through / /; s/ / .. /' <<< "$due")"
  same "completion by bash, of cuts" "$due" "$(by_bash "$1" cut a.off unit 0 '')"
  same "completion by bash, of meshes" "a.off" "$(by_bash "$1" cut '')"
  same "completion by fish, of cuts" "$due" "$(fish -c "complete -C '$1 cut a.off unit 0 '" | cut -f 1 | sort | paste -sd' ')"
  same "completion by fish, of commands" "certify check class" "$(fish -c "complete -C '$1 c'" | cut -f 1 | sort | head -n 3 | paste -sd' ')"
  same "completion by zsh, of cuts" "$due" "$(by_zsh "$1 cut a.off unit 0 " | grep -owE "${due// /|}" | sort -u | paste -sd' ')"
  cd - > /dev/null || exit 2
}

# What bash-completion finds by itself for a line of words.
by_bash() {
  bash -c '. /usr/share/bash-completion/bash_completion
    _completion_loader "$1"
    COMP_WORDS=("$@") COMP_CWORD=$(($# - 1))
    "$(complete -p "$1" | sed "s/.* -F \([^ ]*\) .*/\1/")"
    printf "%s\n" "${COMPREPLY[@]}"' - "$@" | sort | paste -sd' '
}

# What zsh shows on a terminal behind a line, asked for twice.
by_zsh() {
  zsh -fc 'zmodload zsh/zpty
    zpty it zsh -f -i
    zpty -w it "PS1=; autoload -Uz compinit; compinit -u; zstyle \":completion:*\" list-prompt \"\"; print ready"
    zpty -r it said "*ready*ready*"
    zpty -w -n it "$1"$'"'\\t\\t'"'
    sleep 2
    while zpty -rt it said; do print -r -- "$said"; done
    zpty -d it' - "$1"
}

examples() { # NAME FOLDER PYTHON-LIBRARY; then what the compiler is given
  well "$1: the C example" cc -O2 -Wall -Wextra -Werror -o /tmp/basis "$2/basis.c" "${@:4}"
  same "$1: what the C example prints" "$basis_of_torus7" "$(/tmp/basis "$torus7")"
  same "$1: what the Python example prints" "loops 2" "$(python3 "$2/loops.py" "$3" "$ring" 0 | head -n 1)"
}

packages() {
  local before after
  before=$(files)
  well "dpkg -i" dpkg -i surfbasis_*.deb libsurfbasis0_*.deb libsurfbasis-dev_*.deb
  main_job surfbasis $meshes
  same "surf by its folder" "surf $version" "$(PATH=/usr/lib/surfbasis/bin:$PATH; surf --version)"
  same "the plain checker" "valid basis 12262957" \
    "$(python3 /usr/share/surfbasis/tools plain_check check $meshes/eight.off $meshes/eight.len /tmp/eight.cert)"
  manual surfbasis
  completions surfbasis
  torus7=$meshes/torus7.off ring=$meshes/ring.off
  local shown=/usr/share/doc/libsurfbasis-dev/examples
  # shellcheck disable=SC2046  # words for the compiler
  examples "the shared library" $shown libsurfbasis.so.0 $(pkg-config --cflags --libs surfbasis)
  # shellcheck disable=SC2046
  examples "the static library" $shown libsurfbasis.so.0 $(pkg-config --cflags surfbasis) \
    "$(pkg-config --variable=prefix surfbasis)/lib/x86_64-linux-gnu/libsurfbasis.a"
  well "dpkg --purge" dpkg --purge surfbasis libsurfbasis-dev libsurfbasis0
  after=$(files)
  same "the files that are left" "$(printf '%s' "$before" | grep -v cache)" "$(printf '%s' "$after" | grep -v cache)"
}

unpacked() {
  tar xzf surf-*.tar.gz
  cd surf-*/ || exit 2
  well "sha256sum -c PROVED" sha256sum --quiet -c PROVED
}

tools() {
  python3 tools to_off meshes/eight.off > /tmp/again.off
  same "a mesh by to_off.py" "genus 2" "$(bin/surf info /tmp/again.off | tail -n 1)"
  bin/surf basis meshes/eight.off meshes/eight.len > /tmp/basis.txt
  python3 tools show meshes/eight.off /tmp/basis.txt --png /tmp/basis.png
  same "a picture by show.py" "PNG" "$(head -c 4 /tmp/basis.png | tail -c 3)"
}

tarball() {
  unpacked
  (export PATH="$PWD/bin:$PATH"; main_job surf meshes; manual surf; echo "$tried $wrong" > /tmp/counts)
  read -r tried wrong < /tmp/counts
  main_job bin/surf-static meshes
  tools
  same "the lines of INSTALL.md" "status 0" "$(bash -e ../install-lines > /tmp/said 2>&1; echo "status $?")"
  same "what the lines of INSTALL.md print" "2" "$(grep -c '^total 12262957$\|^loops 4$' /tmp/said)"
}

source_distribution() {
  local torus7 found
  found=$(find . -maxdepth 1 -name 'surfbasis-*.tar.gz')
  [ -n "$found" ] || { echo "the release has no source distribution: it isn't tried"; return; }
  well "pip install" pip install --quiet --no-index --no-deps --no-build-isolation --break-system-packages "$found"
  torus7='surfbasis.Surface(7, [[a, (a + j) % 7, (a + k) % 7] for a in range(7) for j, k in ((1, 3), (3, 2))])'
  same "a basis by the source distribution" "[3, 3] libsurf-c.so" "$(cd / && python3 -c "import surfbasis
print([len(cycle) for cycle in $torus7.basis()], surfbasis._library.own_library().name)")"
  well "pip uninstall" pip uninstall --quiet --yes --break-system-packages surfbasis
}

version=$(sed -n 's/.*  surf-\(.*\)-x86_64-linux.tar.gz$/\1/p' SHA256SUMS)
well "sha256sum -c SHA256SUMS" sha256sum --quiet -c SHA256SUMS
case $1 in
  whole) source_distribution; packages; tarball ;;
  old) unpacked; main_job bin/surf-static meshes
    same "the program on a system that is too old" "GLIBC_2" "$(bin/surf --version 2>&1 | grep -o GLIBC_2 | sort -u)" ;;
esac
echo "$((tried - wrong)) of $tried trials in a fresh root ($(cat /etc/debian_version)) went as is due"
[ "$wrong" = 0 ]
