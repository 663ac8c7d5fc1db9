# The C side of the gate: functions for .ci/run, which says what each must show. Each runs from the top of the repository, after the
# archive for C is written.
# shellcheck shell=bash
strict=(-Wall -Wextra -Werror -Wpedantic -Wconversion -Iinclude -Ihost/browser)
watched=(-O1 -g -fsanitize=address -fsanitize=undefined -fno-sanitize-recover=all)
archive_for_c=target/staticlib/libnocturenc.a

compilers() {
    if ! command -v cc > /dev/null || ! command -v c++ > /dev/null; then apt-get update && apt-get install -y gcc g++; fi
}

# Nothing but the header, in either language.
header_alone() {
    echo '#include "nocturenc.h"' | cc -std=c99 "${strict[@]}" -fsyntax-only -x c - &&
        echo '#include "nocturenc.h"' | c++ -std=c++11 "${strict[@]}" -fsyntax-only -x c++ -
}

# Every function of the header, in either language, over the archive.
header_used() {
    cc -std=c99 "${strict[@]}" "${watched[@]}" host/header.c "$archive_for_c" -o target/host/header-c &&
        target/host/header-c &&
        c++ -std=c++11 "${strict[@]}" "${watched[@]}" -x c++ host/header.c -x none "$archive_for_c" -o target/host/header-c++ &&
        target/host/header-c++
}

# The stack that calls take is at most half of what the header states.
stack_measured() {
    rustc -C opt-level=1 --edition 2021 host/stack.rs -o target/host/stack -L target/staticlib -l static=nocturenc && target/host/stack
}

browser_built() {
    cc -std=c99 "${strict[@]}" "${watched[@]}" host/browser/*.c "$archive_for_c" -o target/host/browser-watched
}

# The browser shows what is stored, and of every example and each of its transitions what the table and the listing say.
browser_shows() {
    python3 .ci/displays.py target/host/browser-watched
}

# The browser's own files with another main, which hands it damaged examples by the thousand, with names beside them.
browser_damaged() {
    cc -std=c99 "${strict[@]}" "${watched[@]}" -Dmain=browser_main -c host/browser/main.c -o target/host/browser_main.o &&
        cc -std=c99 "${strict[@]}" "${watched[@]}" host/damage.c host/browser/table.c host/browser/show.c target/host/browser_main.o \
            "$archive_for_c" -o target/host/damage && cat examples/*.names > target/host/damaged.names || return 1
    target/host/damage target/host/damaged.table examples/*.table > target/host/damage.out 2> target/host/damage.err
    local status=$?
    tail -n "$((status == 0 ? 1 : 40))" target/host/damage.err
    return "$status"
}

# A command that must end with status 2 and say why in one line on standard error, and nothing else.
ends_in_one_line() {
    local status
    "$@" > target/host/said.out 2> target/host/said.err
    status=$?
    if [ "$status" -ne 2 ] || [ -s target/host/said.out ] || [ "$(wc -l < target/host/said.err)" -ne 1 ]; then
        echo "status $status, and not one line: $*"
        cat target/host/said.out target/host/said.err
        return 1
    fi
}

# Input that is no table, for the browser and for the command at the top.
bad_input() {
    local good browser=target/host/browser-watched
    good=$(find examples -name '*.table' | sort | head -n 1)
    : > target/host/empty
    printf abc > target/host/odd
    ends_in_one_line "$browser" && ends_in_one_line "$browser" "$good" 0 0 || return 1
    for file in target/host/missing target/host target/host/empty target/host/odd; do
        ends_in_one_line "$browser" "$file" && ends_in_one_line "$browser" "$file" 0 || return 1
    done
    for k in '' x 1x ' 1' -1 +1 0x1 18446744073709551616 99999999999999999999999; do
        ends_in_one_line "$browser" "$good" "$k" || return 1
    done
    for words in "list" "list $good $good" "list target/host/missing" "list target/host" "browse" "browse target/host" "lists $good"; do
        # shellcheck disable=SC2086 # the words are several arguments
        ends_in_one_line ./nocturenc $words || return 1
    done
    # Of a long file the first 65,536 bytes count.
    { cat "$good" && head -c 1000000 /dev/zero; } > target/host/long && "$browser" target/host/long > target/host/said.out
    [ $? -eq 1 ] && grep -q '^refused 3 at ' target/host/said.out
}
