# What bin/photon, bin/build, bin/release, bin/test and .ci/run ask about the program and its sources, which are crates.txt and each .rt and
# .antt file below crates/ that isn't below a folder out/. For a POSIX shell in which $top is the top of the repository.
built=$top/crates/photon/out/photon
released=$top/dist/x86_64-linux/photon
release=$top/dist/RELEASE
found=$top/out/released

# Whether the file is a program that is newer than each source.
is_newest() {
    [ -f "$1" ] && [ -x "$1" ] || return 1
    newer=$(find "$top/crates.txt" "$top/crates" -type d -name out -prune -o \
        -type f \( -name crates.txt -o -name '*.rt' -o -name '*.antt' \) -newer "$1" -print) || return 1
    [ -z "$newer" ]
}

# Prints the SHA-256 of the sources: of the list that sha256sum gives of them, in the order of their paths.
sources_sum() {
    (
        cd "$top" || exit 1
        {
            printf 'crates.txt\0'
            find crates -type d -name out -prune -o -type f \( -name '*.rt' -o -name '*.antt' \) -print0
        } | LC_ALL=C sort -z | xargs -0 sha256sum | file_sum
    )
}

# Prints of each source and of what dist/ has the path, place on the disk, size and times of change, so that each change shows.
sources_state() {
    find "$top/crates.txt" "$top/crates" "$release" "$released" -type d -name out -prune -o -type f \( -name crates.txt -o \
        -name '*.rt' -o -name '*.antt' -o -path "$release" -o -path "$released" \) -printf '%p %i %s %T@ %C@\n' 2>/dev/null
}

# Prints the SHA-256 of the file, or of standard input.
file_sum() {
    sha256sum "$@" | cut -d ' ' -f 1
}

# Prints what dist/RELEASE says of its kit, its program or its sources.
release_says() {
    sed -n "s/^$1: //p" "$release" 2>/dev/null
}

# Whether these are the same sum, and one at all.
is_sum() {
    [ "${#1}" -eq 64 ] && [ "$1" = "$2" ]
}

# Whether the released program was built from just these sources. Their sums take a while, so a file keeps the state in which they were right,
# as it was before they were made.
is_released() {
    [ -f "$release" ] && [ -x "$released" ] && [ "$(uname -sm)" = 'Linux x86_64' ] || return 1
    state=$(sources_state) || state=
    [ -n "$state" ] && [ "$state" = "$(cat "$found" 2>/dev/null)" ] && return 0
    is_sum "$(file_sum "$released")" "$(release_says program)" &&
        is_sum "$(sources_sum)" "$(release_says sources)" || return 1
    { mkdir -p "${found%/*}" && printf '%s\n' "$state" >"$found"; } 2>/dev/null || :
}

# Prints the program of these sources: the one that was built here, where that is newer than they are, else the released one.
program_here() {
    if is_newest "$built"; then
        echo "$built"
    elif is_released; then
        echo "$released"
    else
        return 1
    fi
}
