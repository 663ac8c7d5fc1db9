# The lister's side of the gate: functions for .ci/run, which says what each must show. Each runs from the top of the repository, after
# every crate is proved and linked.
# shellcheck shell=bash

# What ./nocturenc list prints for a file, and how it ends: 0 for an accepted table, 1 for a refused one.
lists_as() { # FILE LISTING
    local wanted=1
    [ "$(head -c 8 "$2")" != accepted ] || wanted=0
    ./nocturenc list "$1" > target/host/listed
    local status=$?
    if ! cmp target/host/listed "$2" || [ "$status" -ne "$wanted" ]; then
        echo "list: $1: status $status, and not what $2 has"
        return 1
    fi
}

# Each example lists as stored.
examples_listed() {
    local text seen=0
    for text in examples/*.txt; do
        lists_as "${text%.txt}.table" "${text%.txt}.listing" || return 1
        seen=$((seen + 1))
    done
    echo "list: $seen examples"
    [ "$seen" -gt 0 ]
}

# Files that are no table get one line.
refused_listed() {
    : > target/host/empty
    printf abc > target/host/odd
    head -c 1000000 /dev/zero > target/host/long
    local file
    for file in 'empty 1 0' 'odd 17 1' 'long 2 0'; do
        echo "refused ${file#* }" > target/host/wanted
        lists_as "target/host/${file%% *}" target/host/wanted || return 1
    done
}

# Every example, the longest tables, files and listings, random and damaged tables: the lister prints what a peer prints by itself.
listed_alike() {
    rustc -O --edition 2021 host/lists.rs -o target/host/lists && target/host/lists target/bin/lister target/host/listed.table examples/*.table
}
