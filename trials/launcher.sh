#!/usr/bin/env bash
# launcher.sh: runs the launcher in fresh copies of this checkout: the first command, and with faults of a release, of the
# tools that unpack it, of the folder and of the sources. Prints a line for each case, and the faults on standard error.
# The exit status is 1 if a case ended otherwise than it should.
set -euo pipefail

top=$(cd -- "$(dirname -- "$(readlink -f -- "${BASH_SOURCE[0]}")")/.." && pwd)
room=$(mktemp -d)
chmod 755 "$room"
trap 'chmod -R u+w "$room"; rm -rf -- "$room"' EXIT
home=$room/home
mkdir "$home"
failed=0
released='kyoto-link: proved when it was released; ./kyoto-link prove proves it here'
no_rt='kyoto-link: the program must be proved and built first, and rt, the command of the Rattle kit, isn'\''t on PATH'
damaged="is damaged, or can't be read or unpacked; 'git checkout release' restores it"
other_program="isn't the one in release/MANIFEST; 'git checkout release' restores it"
other_sources="kyoto-link: the released program was built from other sources than these"

# Prints a PATH with the tools that the launcher uses, except those named and rt.
path_without() {
    local tool folder
    folder=$(mktemp -d -p "$room" path.XXXXXX)
    chmod 755 "$folder"
    for tool in bash env dirname readlink cat cut find sort xargs sed sha256sum gzip mktemp mkdir mv rm chmod uname; do
        [[ " $* " == *" $tool "* ]] || ln -s "$(type -P "$tool")" "$folder/$tool"
    done
    printf '%s\n' "$folder"
}

# Makes a copy of the checkout's files that git lists, changed and new ones included, without built files, and prints its path.
fresh() {
    local copy
    copy=$(mktemp -d -p "$room" copy.XXXXXX)
    chmod 755 "$copy"
    (cd "$top" && git ls-files -z --cached --others --exclude-standard | tar --null -T - -cf - 2>/dev/null) | tar -C "$copy" -xf -
    printf '%s\n' "$copy"
}

# Runs the launcher of a copy on the first example, with `path` as PATH and the words of `as` before it.
path=$(path_without)
as=()
run() {
    local copy=$1
    status=0
    (cd / && "${as[@]}" env -i PATH="$path" HOME="$home" "$copy/kyoto-link" rehearse \
        <"$top/examples/one_transfer/input" >"$room/out" 2>"$room/err") || status=$?
}

fail() {
    printf '%s: %s\n' "$case" "$1" >&2
    sed 's/^/    /' "$room/err" >&2
    failed=1
}

# Checks that the run wrote the example's output, and on standard error these lines alone.
ran() {
    [[ $status -eq 0 ]] || fail "status $status"
    cmp -s "$room/out" "$top/examples/one_transfer/output" || fail "another output"
    printf '%s\n' "$@" | sed '/^$/d' | cmp -s - "$room/err" || fail "other lines on standard error"
}

# Checks that nothing ran, and that standard error has each of these texts.
refused() {
    local text
    [[ $status -eq 1 && ! -s $room/out ]] || fail "status $status"
    for text in "$@"; do
        grep -qF -- "$text" "$room/err" || fail "no line with: $text"
    done
}

begin() {
    case=$1
    copy=$(fresh)
    rm -rf -- "$home/.cache"
    printf '%s\n' "$case"
}

# Changes a byte of a comment of a source.
change_source() {
    sed -i '1s/\.$/!/' "$1/crates/kyoto_link/src/main.rt"
}

begin "the first command, and the second"
start=$(date +%s%N)
run "$copy"
spent=$((($(date +%s%N) - start) / 1000000))
ran "$released"
[[ $spent -lt 5000 ]] || fail "it took $spent ms"
run "$copy"
ran ""

begin "through a link, from another folder"
ln -s "$copy/kyoto-link" "$room/link"
(cd / && env -i PATH="$path" HOME="$home" "$room/link" rehearse <"$top/examples/one_transfer/input" >"$room/out" 2>"$room/err")
status=0
ran "$released"

begin "standard error closed"
status=0
(cd / && env -i PATH="$path" HOME="$home" "$copy/kyoto-link" rehearse <"$top/examples/one_transfer/input" >"$room/out" 2>&-) || status=$?
: >"$room/err"
ran ""

begin "eight at once"
for number in 1 2 3 4 5 6 7 8; do
    env -i PATH="$path" HOME="$home" "$copy/kyoto-link" rehearse <"$top/examples/one_transfer/input" >"$room/out.$number" 2>/dev/null &
done
wait
for number in 1 2 3 4 5 6 7 8; do
    cmp -s "$room/out.$number" "$top/examples/one_transfer/output" || fail "another output"
done
[[ $(ls "$copy/release/out") == kyoto-link ]] || fail "files are left: $(ls "$copy/release/out")"

begin "a cut release"
archive=$(sed -n 's/^archive: //p' "$copy/release/MANIFEST")
truncate -s -1000 "$copy/release/$archive"
run "$copy"
refused "$damaged" "$no_rt"

begin "a release of random bytes"
head -c 100000 /dev/urandom >"$copy/release/$archive"
run "$copy"
refused "$damaged" "$no_rt"

begin "a release with another program in it"
printf '#!/bin/sh\necho wrong\n' | gzip >"$copy/release/$archive"
run "$copy"
refused "$other_program" "$no_rt"

begin "no release file"
rm "$copy/release/$archive"
run "$copy"
refused "$damaged" "$no_rt"

begin "no manifest"
rm "$copy/release/MANIFEST"
run "$copy"
refused "$no_rt"

begin "an unpacked program that was changed"
mkdir "$copy/release/out"
printf '#!/bin/sh\necho wrong\n' >"$copy/release/out/kyoto-link"
chmod 755 "$copy/release/out/kyoto-link"
run "$copy"
ran "$released"

begin "no gzip"
path=$(path_without gzip)
run "$copy"
refused "gzip, which unpacks the released program, isn't on PATH" "$no_rt"

begin "no sha256sum"
path=$(path_without sha256sum)
run "$copy"
refused "sha256sum, which identifies sources and programs, isn't on PATH"
path=$(path_without)

begin "a comment of a source changed by a byte"
change_source "$copy"
run "$copy"
refused "$other_sources" "$no_rt"

begin "the same, and rt is on PATH"
change_source "$copy"
path=$(path_without)
printf '#!/bin/sh\necho "asked for: $*"\nexit 1\n' >"$path/rt"
chmod 755 "$path/rt"
ln -s "$(python3 -c 'import sys; print(sys.executable)')" "$path/python3"
run "$copy"
refused "$other_sources" "proving the crates" "asked for: all check --jobs"
path=$(path_without)

begin "a release of other sources"
sed -i 's/^sources: .*/sources: 0/' "$copy/release/MANIFEST"
run "$copy"
refused "$other_sources" "$no_rt"

begin "a program here that was built from other sources"
mkdir -p "$copy/crates/kyoto_link/out"
printf '#!/bin/sh\necho wrong\n' >"$copy/crates/kyoto_link/out/kyoto_link"
chmod 755 "$copy/crates/kyoto_link/out/kyoto_link"
printf '0 %s\n' "$(sha256sum <"$copy/crates/kyoto_link/out/kyoto_link" | cut -d ' ' -f 1)" >"$copy/crates/kyoto_link/out/kyoto-link.sources"
run "$copy"
ran "$released"

begin "a program here that is older than a source"
mkdir -p "$copy/crates/kyoto_link/out"
printf '#!/bin/sh\necho wrong\n' >"$copy/crates/kyoto_link/out/kyoto_link"
chmod 755 "$copy/crates/kyoto_link/out/kyoto_link"
touch -d '1 hour ago' "$copy/crates/kyoto_link/out/kyoto_link"
run "$copy"
ran "$released"

if [[ $(id -u) -eq 0 ]]; then
    as=(setpriv --reuid=65534 --regid=65534 --clear-groups)

    begin "a checkout that can't be written to"
    chown 65534 "$home"
    run "$copy"
    ran "$released"
    run "$copy"
    ran ""
    [[ ! -e $copy/release/out ]] || fail "the checkout was written to"

    begin "nor the cache"
    chown 0 "$home"
    run "$copy"
    ran "$released"
    as=()
fi

begin "a limit on the size of files"
mkdir "$room/limited"
head -n 1 "$top/examples/one_transfer/input" >"$room/scheme"
status=0
(cd / && ulimit -f 8 && env -i PATH="$path" HOME="$home" "$copy/kyoto-link" show "$room/scheme" "$room/limited" NZ \
    >"$room/out" 2>"$room/err") || status=$?
[[ $status -eq 4 ]] || fail "status $status"

exit "$failed"
