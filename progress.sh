# Read by `run`, `test` and bindings/build.sh: has rt work, and says on standard error how far it is. Its reader sets `root`.

# show_progress: of what rt prints, a line for each crate that it has proved and each edit that it saw refused.
show_progress() {
    local edits=0 every line
    every=$(find "$root/crates" -path '*/must-fail/*.edit' | wc -l)
    while IFS= read -r line; do
        if [[ $line =~ ^rt:\ ([a-z0-9_]+)\ proved$ ]]; then
            echo "proved ${BASH_REMATCH[1]}"
        elif [[ $line =~ ^crate\ ([a-z0-9_]+): ]]; then
            echo "checked ${BASH_REMATCH[1]}"
        elif [[ $line =~ ^rt:\ must-fail\ ([^:]+):\ refused, ]]; then
            edits=$((edits + 1))
            echo "refused $edits of $every edits: ${BASH_REMATCH[1]}"
        fi
    done >&2
}

# prove LOG FOLDER WORDS..: runs rt WORDS.. in a folder of the repository, with all that it prints in LOG; its status is rt's.
# A pipe, so that nothing runs on when this ends.
prove() {
    (cd "$root/$2" && rt "${@:3}") 2>&1 | tee "$1" | show_progress
    return "${PIPESTATUS[0]}"
}
