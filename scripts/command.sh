# Sourced by the commands at the top, which have set `command`, their name, and `here`, the folder in which they stand.

# Tells what is wrong with the arguments, and ends.
refuse() {
  echo "$command: $1; './$command --help' tells how it is called" >&2
  exit 2
}

# The one argument that an option leaves is itself.
alone() {
  [ "$2" = 1 ] || refuse "$1 stands alone"
}

# Carries out what each command is asked by: --help, and --prove where it has a program, whose name comes first. The command's own options
# are those of `options`; another one isn't known.
take_options() {
  local program=$1 word
  shift
  for word; do
    case $word in
      --help) alone "$word" $#; tell_use; exit 0 ;;
      --prove)
        if [ -n "$program" ]; then
          alone "$word" $#
          exec "$here/scripts/build_program" "$program"
        fi
        ;;&
      -*) [[ " ${options:-} " == *" $word "* ]] || refuse "'$word' isn't known" ;;
    esac
  done
}

# Whether files can be read.
need_files() {
  local file
  for file; do
    [ -r "$file" ] && [ ! -d "$file" ] || refuse "no file '$file' can be read"
  done
}

# Makes a folder that is gone at the end, whose name is `room` then.
make_room() {
  room=$(mktemp -d)
  trap 'rm -rf "$room"' EXIT
}

# Runs a program that isn't proved by the kit's `rt try` with these words, and tells on standard error that it isn't, how far its proof is, and
# how long this takes. What the kit says of the run goes into the room.
try_program() {
  local program=$1 rt status=0
  shift
  rt=$(command -v rt || true)
  [ -n "$rt" ] || rt=${RATTLE_KIT:-}/bin/rt
  if [ ! -x "$rt" ]; then
    echo "$command: rt is missing: put the kit's rt on the PATH, or the kit's folder into RATTLE_KIT" >&2
    exit 127
  fi
  echo "$command: this answer comes, in a minute or two, from a program that isn't proved yet; './$command --prove' proves it, in an hour or two ($("$here/scripts/is_proved" --count "$program") are proved)" >&2
  (cd "$here/crates/$program" && "$rt" try "$@" 2>"$room/told") || status=$?
  return "$status"
}

# Ends where a program that isn't proved had no answer.
end_untold() {
  cat "$room/told" >&2
  exit 127
}

# Adds the other sources below the folder of a file, which the run knows by this name, to those that are copied.
add_sources_below() {
  local folder=$(dirname "$1") known file
  known=$(dirname "$2")/
  while IFS= read -r -d '' file; do
    [ "$folder/$file" -ef "$1" ] || data+=(--data "${known#./}$file=$(realpath "$folder/$file")")
  done < <(cd "$folder" && find . -name '*.rs' -type f -printf '%P\0')
}

# Adds the sources and the manifests below a package's folder, which the run knows by this name, to those that are copied; not what cargo built.
add_package() {
  local folder=$1 known=${2%/}/ file
  while IFS= read -r -d '' file; do
    data+=(--data "${known#./}$file=$(realpath "$folder/$file")")
  done < <(cd "$folder" && find . -path ./target -prune -o \( -name '*.rs' -o -name Cargo.toml \) -type f -printf '%P\0')
}

# Whether a manifest below a package's folder leads to files outside of it.
leads_out() {
  grep -rqE --include=Cargo.toml --exclude-dir=target 'path *= *"(\.\./|/)|workspace *= *true' "$1"
}

# The folder of the package that an argument names, or whose root file it may be.
package_of() {
  case /$1 in
    */Cargo.toml) dirname "$1" ;;
    */src/lib.rs | */src/main.rs) dirname "$(dirname "$1")" ;;
    *) echo "$1" ;;
  esac
}

# Whether an argument names a package.
is_of_package() {
  [ -f "$(package_of "$1")/Cargo.toml" ]
}

# Whether what an argument names, behind this one, is read where it stands: vendored packages, and a package that needs more than its folder.
is_read_there() {
  [ "$2" != --vendor ] || [ ! -d "$1" ] || return 0
  is_of_package "$1" && { [ -f "$(package_of "$1")/.cargo-checksum.json" ] || leads_out "$(package_of "$1")"; }
}

# Runs a program with these words: proved, where it is, and else the same sources unproved. The status is the program's.
run_program() {
  local program=$1 status=0 word name before='' words=() data=() limit=()
  shift
  if "$here/scripts/is_proved" "$program"; then
    "$here/crates/$program/out/$program" "$@" || status=$?
    return "$status"
  fi
  # (it runs in a folder of its own, into which a file or a folder that is named is copied, by a path that doesn't lead out of it)
  for word; do
    name=$word
    # (what lies outside of a package's folder is read where it stands, and may take longer)
    if [ -n "${follows:-}" ] && [[ $word == --vendor=* ]]; then
      name=--vendor=$(realpath -m -- "${word#*=}") limit=(--seconds 600)
    elif [ -n "${follows:-}" ] && [ -e "$word" ] && is_read_there "$word" "$before"; then
      name=$(realpath "$word") limit=(--seconds 600)
    elif [ -f "$word" ] || { [ -n "${follows:-}" ] && [ -d "$word" ]; }; then
      if [[ /$word/ == */../* || $word == /* ]]; then
        name=$(realpath -ms --relative-to=. "$word" | sed -E 's|^(\.\./)*||; s|^\.\.$|package|')
      fi
      if [ -d "$word" ] || { [ -n "${follows:-}" ] && is_of_package "$word"; }; then
        add_package "$(package_of "$word")" "$(package_of "$name")"
      else
        data+=(--data "$name=$(realpath "$word")")
        if [ -n "${follows:-}" ] && [[ "/$word" == */lib.rs || "/$word" == */main.rs || " $* " == *" --root "* ]]; then
          add_sources_below "$word" "$name"
        fi
      fi
    fi
    words+=("$name") before=$word
  done
  try_program "$program" ${limit[@]+"${limit[@]}"} ${data[@]+"${data[@]}"} ${words[@]+-- "${words[@]}"} || status=$?
  grep -q '^run=ended' "$room/told" || end_untold
  grep -vE '^(rt|run=|interpreter|checked|statements|logic|by-macro)' "$room/told" >&2 || true
  return "$status"
}

# Runs a program on each of so many inputs, the files 1, 2 .. of the room's `in`: `out` has the answers then, and `status` what they end with. One
# build of a program that isn't proved answers all.
run_on_all() {
  local program=$1 count=$2 at
  mkdir "$room/out" "$room/status"
  if [ "$count" = 1 ] || "$here/scripts/is_proved" "$program"; then
    for ((at = 1; at <= count; at++)); do
      echo 0 >"$room/status/$at"
      run_program "$program" <"$room/in/$at" >"$room/out/$at" || echo $? >"$room/status/$at"
    done
    return 0
  fi
  try_program "$program" --cases "$room/in" </dev/null >"$room/all" || end_untold
  awk -v out="$room/out" '/^== [0-9]+$/ { file = out "/" $2; printf "" >file; next } { print >file }' "$room/all"
  for ((at = 1; at <= count; at++)); do
    sed -nE "s/^case=$at run=ended status=([0-9]+) .*/\1/p" "$room/told" >"$room/status/$at"
    [ -s "$room/status/$at" ] || end_untold
  done
}

# Answers what the files have that are named, or standard input where none is, by a program, each behind its name where several are; `drawn_by`
# is what a layout's answer is handed to, where it is drawn. Tells on standard error what else the answers mean. The status is the greatest.
answer() {
  local program=$1 count=0 file status at status_of
  shift
  need_files "$@"
  make_room
  mkdir "$room/in"
  for file; do
    count=$((count + 1))
    cat -- "$file" >"$room/in/$count"
  done
  if [ "$count" = 0 ]; then
    count=1
    cat >"$room/in/1"
  fi
  run_on_all "$program" "$count"
  status=0
  for ((at = 1; at <= count; at++)); do
    status_of=$(cat "$room/status/$at")
    [ "$status_of" -le "$status" ] || status=$status_of
    [ "$count" = 1 ] || echo "file ${!at}"
    if [ "$status_of" = 0 ] && [ -n "${drawn_by:-}" ]; then
      "$drawn_by" "$room/in/$at" <"$room/out/$at"
    else
      cat "$room/out/$at"
    fi
    # (a first line with a colon has a spec)
    if [ "$status_of" = 1 ] || [ "$status_of" = 2 ] || [[ $(head -n 1 "$room/in/$at") =~ ^[^:]+$ ]]; then
      "$here/scripts/explain" "$command" "$room/in/$at" "$room/out/$at"
    fi
  done
  return "$status"
}
