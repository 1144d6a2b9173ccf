#!/usr/bin/env bash
# Refuses each allocation of an edit in turn: then the graph is to be as it was, and the same edit is to be done by the
# next call. `rt try --test --fail-alloc N` runs the test of graph_edits with the Nth allocation failing. The first ones
# are the test's own, before the edit, and so is the last, after it: at these the test ends for want of memory. Run it
# from anywhere; it ends with 'N passed, M failed'. The gate does not need it.
set -u

here=$(cd "$(dirname "${BASH_SOURCE[0]}")/.." && pwd) || exit 1
test=tests::an_edit_is_done_whole_or_not_at_all
most=200 # allocations: an edit of one row makes fewer
cd "$here/crates/graph_edits" || exit 1
passed=0
failed=0
before=0
ended=no
for ((allocation = 1; allocation <= most; allocation++)); do
    said=$(rt try --test --fail-alloc "$allocation" 2>&1 | sed -n "/^test $test /,/^test /p" | sed '1!{/^test /d}')
    case $said in
        "test $test ... ok"*)
            passed=$((passed + 1))
            ;;
        *'error: NoMemory'*)
            if [ "$passed" -gt 0 ]; then
                ended=yes
                break
            fi
            before=$((before + 1))
            ;;
        *)
            failed=$((failed + 1))
            echo "allocation $allocation: $said"
            ;;
    esac
done
if [ "$ended" = no ]; then
    failed=$((failed + 1))
    echo "no end after $most allocations"
fi
echo "$before allocations before the edit; its own are the $passed after them"
echo "$passed passed, $failed failed"
[ "$failed" -eq 0 ]
