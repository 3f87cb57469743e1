#!/usr/bin/env bash
# What a developer does daily. Without words it lists the commands.
set -euo pipefail

cd -- "$(dirname -- "$(readlink -f -- "${BASH_SOURCE[0]}")")"

usage() {
    cat <<'END'
usage: ./do COMMAND

  check CRATE     proves a crate, after those below it that need it
  edits [CRATE]   tries the edits that the prover must refuse, of one crate or of all
  plant CRATE     lists wrong bodies that the crate's contracts let through
  test CRATE      runs the tests of a crate of tests
  examples ..     compares the program's output for each of the examples, or those named, with their files
  bench NAME ..   runs bench/NAME.py with these words; without words it lists the benches
  trial NAME ..   runs trials/NAME.py with these words; without words it lists the trials
  docs            looks for stale names, wrong comments of definitions, other texts of `explain`, lemmas that are
                  proved again, must-fail edits without a place, the version; counts functions with many parameters,
                  names of several types, and searches for the ends of lines
  pages           runs the commands of README and OPERATING as written, and compares their outputs
  lists           writes lists of all contracts, lemmas, definitions and edits into out/lists
  times           runs the gate, and writes the processor seconds of each crate into docs/log/times.md
  format          formats all sources
  gate            runs the gate of a merge, .ci/run
  release         makes the release anew, after a gate
END
}

fail() {
    printf 'do: %s\n' "$1" >&2
    exit 2
}

# In the folder of the crate with that name.
in_crate() {
    [[ -n ${1-} && -d crates/$1 ]] || fail "no crate ${1:-was named}"
    cd -- "crates/$1"
}

# The script of a folder with that name, or the list of the folder's scripts.
run_script() {
    local folder=$1 name=${2-}
    if [[ -z $name ]]; then
        grep -lx 'if __name__ == "__main__":' "$folder"/*.py | sed "s|$folder/||; s|\.py\$||"
        exit
    fi
    [[ -f $folder/$name.py ]] || fail "no $name in $folder"
    shift 2
    exec python3 "$folder/$name.py" "$@"
}

command=${1-}
shift || true
case $command in
'' | help | --help | -h) usage ;;
check | plant | test)
    (in_crate "${1-}" && exec rt "$command")
    ;;
edits) rt must-fail "$@" ;;
examples) exec python3 tools/examples.py "$@" ;;
bench) run_script bench "$@" ;;
trial) run_script trials "$@" ;;
docs)
    status=0
    for script in stale_names count_definitions explained same_lemmas edits_refused wide_functions same_names; do
        python3 "tools/$script.py" || status=1
    done
    # The version stands in the code; the documents and the release have it too.
    version=$(sed -n 's/^const VERSION: &str = "\(.*\)";$/\1/p' crates/command_line/src/parsing.rt)
    for file in CHANGELOG.md release/MANIFEST examples/command_line/version/output; do
        if ! grep -qF " $version" "$file"; then
            printf '%s has no version %s\n' "$file" "$version"
            status=1
        fi
    done
    exit "$status"
    ;;
pages) exec python3 tools/tried.py "$@" ;;
lists) exec python3 tools/make_lists.py ;;
times) exec python3 tools/gate.py "$@" ;;
format) for crate in crates/*/; do (cd -- "$crate" && rt fmt); done ;;
gate) exec .ci/run ;;
release) exec release/make ;;
*)
    usage >&2
    fail "no command $command"
    ;;
esac
