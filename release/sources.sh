# shellcheck shell=bash disable=SC2034,SC2154
# What ./finder and the scripts here know of the released program and of its sources. They source this file, with
# `root` set to the top of the repository. It needs bash, awk, gzip, and GNU's coreutils and findutils.

archive=$root/release/culprit_finder.gz
# Where the released program is unpacked to, and what is known of the sources; git ignores it.
unpacked=$root/release/out
# The program that the toolchain builds.
built=$root/crates/culprit_finder/out/culprit_finder

# Reads what release/manifest says of the program, its sources, the machines that it is for, and the toolchain.
read_manifest() {
  local name said
  released_program='' released_sources='' released_for='' released_kit=''
  [ -f "$root/release/manifest" ] || return
  while read -r name said; do
    case $name in
      program) released_program=$said ;;
      sources) released_sources=$said ;;
      runs-on) released_for=$said ;;
      kit) released_kit=$said ;;
      crate) break ;;
    esac
  done <"$root/release/manifest"
  [ -n "$released_program" ] && [ -n "$released_sources" ] && [ -n "$released_for" ]
}

# Sets `sum` to the SHA-256 of a file.
sum_of() {
  sum=$(sha256sum <"$1") && sum=${sum%% *}
}

# The lines of crates.txt of the crates that the program stands on, and its own, by name.
program_lines() {
  awk -v top=culprit_finder '
    { line = $0; sub(/#.*/, ""); colon = index($0, ":") }
    colon { split(substr($0, 1, colon - 1), head, " "); uses[head[1]] = substr($0, colon + 1); lines[head[1]] = line }
    END {
      todo[1] = top; seen[top]; many = 1
      for (at = 1; at <= many; at++) {
        print lines[todo[at]]
        of_it = split(uses[todo[at]], names, " ")
        for (i = 1; i <= of_it; i++)
          if (names[i] in uses && !(names[i] in seen)) { seen[names[i]]; todo[++many] = names[i] }
      }
    }' "$root/crates.txt" | LC_ALL=C sort
}

# The folders with the sources of those crates, from the top on, in the array `places`; their lines stand in `lines`.
find_places() {
  local line part
  places=()
  mapfile -t lines < <(program_lines)
  for line in "${lines[@]}"; do
    for part in src specs proofs; do
      [ -d "$root/crates/${line%%[: ]*}/$part" ] && places+=("crates/${line%%[: ]*}/$part")
    done
  done
  return 0
}

# The first source that is newer than the program which was built here, if there is one, after `find_places`.
newer_source() {
  (cd "$root" && find crates.txt HANDLES "${places[@]}" -newer "$built" -print -quit)
}

# The sources, after `find_places`: HANDLES, the lines, and the SHA-256 of each file with its path.
list_sources() {
  (
    cd "$root" || exit
    cat HANDLES
    printf '%s\n' "${lines[@]}"
    find "${places[@]}" -type f -print0 | xargs -0 -P 4 -n 600 sha256sum | LC_ALL=C sort -k 2
  )
}

# What tells any change of the sources, after `find_places`: each name with its inode, size and time of change. It is
# called in a subshell.
fingerprint() {
  set -o pipefail
  cd "$root" && find HANDLES crates.txt "${places[@]}" -printf '%p %i %s %C@\n' | sha256sum
}

# Sets `sources` to the SHA-256 of the sources as they stand, after `find_places`. It is kept beside the unpacked
# program, with the fingerprint that the sources had before they were read.
sum_sources() {
  local told known
  told=$(fingerprint 2>/dev/null) || told=''
  read -r sources known 2>/dev/null <"$unpacked/sources"
  [ -n "$told" ] && [ "$told" = "${known:-}" ] && return
  sources=$(list_sources | sha256sum) && sources=${sources%% *}
  keep_sum "$sources" "$told" 2>/dev/null
  return 0
}

# Keeps the sum of the sources for the next time, unless one changed so lately that its next change may have the same
# time and wouldn't be told.
keep_sum() {
  (cd "$root" && [ -z "$(find HANDLES crates.txt "${places[@]}" -newerct '2 seconds ago' -print -quit 2>&1)" ]) &&
    mkdir -p "$unpacked" && printf '%s %s\n' "$@" >"$unpacked/sources.$$" &&
    mv -f "$unpacked/sources.$$" "$unpacked/sources"
}

# The SHA-256 of each part of the sources, after `find_places`: a line `crate NAME SUM` for each crate, of its line of
# crates.txt and its lines in the list, and one for HANDLES.
sums_of_parts() {
  sum_of "$root/HANDLES" && printf 'handles %s\n' "$sum"
  list_sources | awk '
    FNR == 1 { next }
    / crates\// { split($2, path, "/"); parts[path[2]] = parts[path[2]] $0 "\n"; next }
    { name = $1; sub(/:.*/, "", name); names[++many] = name; parts[name] = $0 "\n" }
    END {
      for (i = 1; i <= many; i++) {
        command = "printf \"crate %s %.64s\\n\" " names[i] " \"$(sha256sum)\""
        printf "%s", parts[names[i]] | command
        close(command)
      }
    }'
}

# The parts whose sources aren't those that the manifest names, after `find_places`, one a line.
differing_parts() {
  { sums_of_parts; grep -E '^(crate|handles) ' "$root/release/manifest"; } | sort | uniq -u |
    awk '{ print $1 == "crate" ? $2 : "HANDLES" }' | sort -u
}
