#!/bin/sh
# Checks that what is taken of the heap is given back, by the program and by the tests of all libraries, that no block is larger than what was asked
# for justifies, that tests of large sizes do with as many bytes as these justify, and that a history which is forgotten frees its memory. It takes
# the programs that `rt ci` left (`rt run` in crates/sci_console and `rt test` leave them too). Run it anywhere in the repository.
set -u
top=$(cd "$(dirname "$0")/../.." && pwd)
program=$top/crates/sci_console/out/sci_console
[ -x "$program" ] || { echo "sci_console was not built"; exit 2; }
work=$(mktemp -d)
trap 'rm -rf "$work"' EXIT
compiler=$(command -v cc || command -v gcc || command -v clang)
"$compiler" -shared -fPIC -O2 -o "$work/heap_count.so" "$top/tools/ci/heap_count.c" || exit 2
passed=0
failed=0

# fail WHAT: a row that failed.
fail() {
    echo "FAILED  $1"
    failed=$((failed + 1))
}

# kept NAME MOST WORD..: the run gives back all that it took, and takes no block of more than MOST bytes, though it can have larger ones; what it ends with
# does not matter here.
kept() {
    name=$1 most=$2 left='' largest=''
    shift 2
    rm -f "$work/report"
    HEAP_REPORT=$work/report LD_PRELOAD=$work/heap_count.so "$@" >/dev/null 2>&1 <"$work/in"
    [ -f "$work/report" ] && read -r _ _ _ left _ largest _ <"$work/report"
    if [ "$left" = 0 ] && [ "$largest" -le "$most" ]; then passed=$((passed + 1)); else
        fail "$name, in blocks of at most $most bytes: $(cat "$work/report" 2>&1)"
    fi
}

# done_within NAME MOST WORD..: the run ends with status 0 though no block of more than MOST bytes can be had.
done_within() {
    name=$1 most=$2
    shift 2
    if HEAP_MOST=$most LD_PRELOAD=$work/heap_count.so "$@" >"$work/out" 2>&1 <"$work/in"; then passed=$((passed + 1)); else
        fail "$name within blocks of $most bytes: $(tail -n 1 "$work/out")"
    fi
}

: >"$work/in"
for script in "$top"/examples/messages/*.sci; do
    set -- "$script"
    [ ! -f "${script%.sci}.file1" ] || set -- "$script" "${script%.sci}.file1"
    kept "run $(basename "$script")" 4000000 "$program" run "$@"
    kept "list $(basename "$script")" 4000000 "$program" list "$script"
    done_within "check $(basename "$script")" 200000 "$program" check "$script"
done
kept 'no such command' 4000000 "$program" go
kept 'no such script' 4000000 "$program" run missing.sci
kept 'want of memory' 300 env HEAP_MOST=300 "$program" run "$top/examples/messages/hello.sci"
kept 'a run without notes' 4000000 "$program" run --quiet "$top/examples/messages/a_long_walk.sci"
kept 'a faulty script' 4000000 "$program" check "$top/examples/messages/hello.out"
kept 'a line at fault' 4000000 "$program" check --show "$top/examples/messages/hello.out"
cp "$top/examples/steps/tour.orders" "$work/in"
kept 'a tour of steps' 4000000 "$program" step "$top/examples/steps/tour.sci" "$top/examples/steps/tour.file1"
: >"$work/in"

# 16 MiB of insertions, one megabyte put in at once, and 1,000 views.
awk 'BEGIN { print "sci 1"; print "open"; for (i = 0; i < 100000; i++) printf "send 1 2003 %d 0 \"abcdefghi\\x0a\"\n", i * 10 }' >"$work/many.sci"
awk 'BEGIN { print "sci 1"; for (i = 0; i < 1000; i++) print "open" }' >"$work/views.sci"
kept 'a hundred thousand insertions' 40000000 "$program" run "$work/many.sci"
done_within 'a hundred thousand insertions' 40000000 "$program" run "$work/many.sci"
kept 'a thousand views' 4000000 "$program" run "$work/views.sci"
done_within 'a thousand views' 1000000 "$program" run "$work/views.sci"

# Four documents one after the other have 8 MiB of history, in a block that the allocator made larger, and then forget it: by EMPTYUNDOBUFFER, and by
# SETUNDOCOLLECTION off. All that is held beside one history, the script, the texts and the clipboard among it, fits into 1 MiB.
awk '
    function send(view, message) { print "send " view " " message " 0 0 \"\"" }
    BEGIN {
        print "sci 1"
        for (view = 1; view <= 4; view++) print "open"
        for (i = 0; i < 64; i++) text = text "abcdefghijklmnop"
        print "send 1 2003 0 0 \"" text "\""
        for (i = 0; i < 7; i++) { send(1, 2013); send(1, 2178); send(1, 2318); if (i < 6) send(1, 2179) }
        for (view = 1; view <= 4; view++) {
            send(view, 2359); send(view, 2004); send(view, 2175)
            for (i = 0; i < 64; i++) { send(view, 2179); send(view, 2004) }
            send(view, view % 2 == 0 ? 2012 : 2175)
        }
    }' >"$work/forgotten.sci"
HEAP_PEAK=$((8388608 + 1048576))
export HEAP_PEAK
done_within 'histories that are forgotten' 2000000000 "$program" run --quiet "$work/forgotten.sci"
unset HEAP_PEAK

# The most bytes that a test of a large size may hold at once. The texts of `large_tests` have 1,048,576 bytes, in 65,536 lines. Where a block grows, the old
# one of half the size is there beside it, unless the allocator makes it larger, as where no item stands behind the gap. 40,000 bytes are for what the heap
# rounds up.
bound() {
    case "$1" in
        # the text, its copy, the items one by one in a block that grew, which is gone when 65,536 numbers of 4 bytes come
        items_at_once_and_one_by_one) echo $((2 * 1048576 + 1048576 + 524288 + 40000)) ;;
        # the text, bytes, styles, and the copy
        cells_of_a_large_text) echo $((4 * 1048576 + 40000)) ;;
        # the text, and bytes and styles in blocks that grew twice by a sixty-fourth part, of the styles the last two of them
        a_large_text_that_is_changed) echo $((1048576 + 1064960 + 2 * 1081600 + 40000)) ;;
        # bytes, and styles in a block that grew
        cells_of_a_large_text_line_by_line) echo $((1048576 + 1048576 + 524288 + 40000)) ;;
        # 65,536 starts of 4 bytes, or of 8, in a block that grew
        many_small_partitions) echo $((262144 + 131072 + 40000)) ;;
        many_large_partitions) echo $((524288 + 262144 + 40000)) ;;
        # 140,000 starts of 4 bytes, for which room was made at once
        looks_up_among_many) echo $((140001 * 4 + 40000)) ;;
        # three texts (what goes in, the old and the new one), and twice 65,543 starts of 4 bytes
        lines_of_a_large_text) echo $((3 * 1048576 + 2 * 65543 * 4 + 40000)) ;;
        # the text, and the turned one with 65,536 bytes more
        line_ends_turned_and_back) echo $((1048576 + 1114112 + 40000)) ;;
        # the text and its bytes in the history
        a_step_of_a_large_text) echo $((2 * 1048576 + 40000)) ;;
        # 65,536 records of 32 bytes, and as many texts of 16, in blocks that the allocator made larger
        many_steps) echo $((2097152 + 1048576 + 40000)) ;;
        # room for the levels, the states and the markers of 131,072 lines, of 4, 4 and 12 bytes, and 4 more for each line, in blocks that the allocator made larger
        rows_line_by_line) echo $((131072 * (4 + 4 + 12 + 4) + 40000)) ;;
        # the same of 100,000 lines, for which room was made at once
        rows_at_once) echo $((100000 * (4 + 4 + 12 + 4) + 40000)) ;;
        # 200,000 runs in room for 393,216, which is 3, doubled again and again: a start of 4 bytes, or of 8, and a value of 4, and the old block of the
        # last that grew
        indicators_of_small_places) echo $((393216 * (4 + 4) + 196608 * 4 + 40000)) ;;
        indicators_of_large_places) echo $((393216 * (8 + 4) + 196608 * 8 + 40000)) ;;
        # room for 100,003 runs of one indicator, a start and a value of 4 bytes each
        insertions_about_an_indicator) echo $((100003 * (4 + 4) + 40000)) ;;
        # room for 131,072 commands of 56 bytes, 100,000 texts of 24 and the listing
        a_long_script_is_listed_and_read) echo $((7340032 + 2400000 + 3200006 + 40000)) ;;
        # a text of 700,000 bytes that grew by doubling
        many_outcomes_are_printed) echo $((1048576 + 40000)) ;;
        # a piece of 1 MiB, 8 MiB of bytes and as many of styles, and the 16 MiB that are handed out in a block that did not grow
        styled_text_of_a_large_size) echo $((1048576 + 2 * 8388608 + 16777216 + 40000)) ;;
        # 1,024 views of 224 bytes, of each 16 in the order of ids and 4 in its document's list, and 3,072 notes of 112
        many_views_hear_one_document) echo $((1024 * (224 + 16 + 4) + 3072 * 112 + 40000)) ;;
        # room for 1,024 documents of 776 bytes beside that for 512, with as many views of 224, and of both 16 in the order of ids and three blocks of 24
        many_views_have_documents_of_their_own) echo $((1024 * 776 + 512 * (776 + 224 + 2 * 16 + 3 * 24) + 40000)) ;;
        *) echo 0 ;;
    esac
}

# Each test of each crate by itself.
large=0
for crate in "$top"/crates/*; do
    grep -rqs '#\[test\]' "$crate/src" || continue
    tests=$crate/out/$(basename "$crate")_tests
    [ -x "$tests" ] || { fail "the tests of $(basename "$crate") were not built"; continue; }
    names=$("$tests" --list | sed -n 's/: test$//p')
    [ -n "$names" ] || fail "the tests of $(basename "$crate") are not listed"
    for name in $names; do
        kept "$name" 40000000 "$tests" "$name"
        case "$name" in
            large_tests::* | large_session_tests::*)
                large=$((large + 1))
                HEAP_PEAK=$(bound "${name#*::}")
                export HEAP_PEAK
                done_within "$name, all in $HEAP_PEAK bytes and 4 seconds," 2000000000 timeout 4 "$tests" "$name"
                unset HEAP_PEAK
                ;;
        esac
    done
done
[ "$large" -gt 0 ] || fail 'the tests of large sizes were not built'
echo "heap: $passed passed, $failed failed"
[ "$failed" = 0 ]
