# Which build of the program may run; for bin/cgns_tool, bin/install and the gate. It wants `top`, the repository's folder.
#
# What runs is a copy of the program, `accepted`. It is put there once the prover has accepted the sources that it was built
# of, and its time is the moment before that build began. So a build that was refused or cut off leaves nothing that runs,
# however new its program is, and nor does one whose sources changed meanwhile.
crate=$top/crates/cgns_tool
accepted=$crate/out/accepted/cgns_tool

# Whether no source has changed since the time of a file. The time of a change cannot be set back, as that of a text can.
is_unchanged_since() {
    local changed
    changed=$(
        shopt -s nullglob
        find "$top/crates.txt" "$top"/crates/*/{src,specs,proofs} -newercm "$1" -print -quit
    ) && [ -z "$changed" ]
}

is_accepted() {
    [ -x "$accepted" ] && is_unchanged_since "$accepted"
}

# Takes what an accepted build, begun after the time of the file $1, has left.
accept() {
    local copy=$accepted.$BASHPID
    if mkdir -p "${accepted%/*}" && cp "$crate/out/cgns_tool" "$copy" && touch -r "$1" "$copy" && is_unchanged_since "$1"; then
        mv "$copy" "$accepted"
    else
        rm -f "$copy"
        return 1
    fi
}

# Proves and builds the program where it is not accepted yet, one call at a time. All that is said goes to the standard error.
need_program() {
    is_accepted && return
    mkdir -p "${accepted%/*}" || return
    (
        if ! flock -n 9; then
            echo 'cgns_tool: waiting for another build to end'
            flock 9
            is_accepted && exit
        fi
        begun=${accepted%/*}/begun
        rm -f "$accepted".*
        touch "$begun" || exit
        # a session without lines touches no file, and ends with 0; what is refused does not
        if ! (cd "$crate" && rt run -- session none); then
            echo 'cgns_tool: the sources were not accepted, so nothing runs'
            exit 1
        fi
        if ! accept "$begun"; then
            echo 'cgns_tool: the sources changed while they were proved, so nothing runs: call it again'
            exit 1
        fi
    ) 9>"${accepted%/*}/lock" >&2 </dev/null
}
