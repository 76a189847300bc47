#!/bin/sh
# Checks the exit statuses of sci_console, what it prints and its lines on standard error, each fault of a script, and a session of steps, as
# each compiler built it. Run it anywhere in the repository: it takes the programs that `rt ci` left, and where there are none builds one first.
# `rt run` leaves the program of one compiler: a line says then that the other's was not tried. A row that cannot be tried here has such a line, too.
# shellcheck disable=SC2086 # a list of words is kept in a variable, since sh has no arrays, and split where it is used
set -u
top=$(cd "$(dirname "$0")/../.." && pwd)
out=$top/crates/sci_console/out
[ -x "$out/sci_console" ] || (cd "$top/crates/sci_console" && rt run -- --help) >/dev/null 2>&1
[ -x "$out/sci_console" ] || { echo "sci_console was not built"; exit 2; }
work=$(mktemp -d)
trap 'rm -rf "$work"' EXIT
cd "$work" || exit 2
passed=0
failed=0

# Tells and counts what came of a row: its name, and `yes` or what is wrong.
tell() {
    if [ "$2" = yes ]; then passed=$((passed + 1)); else echo "FAILED  $(basename "$program"), $1: $2"; failed=$((failed + 1)); fi
}

# tell_fault NAME GOT STATUS LINE: the run ended with this status, and its line on standard error was this one.
tell_fault() {
    if [ "$2" = "$3" ] && [ "$(cat err)" = "$4" ]; then tell "$1" yes; else tell "$1" "status $2, $(cat err)"; fi
}

# expect NAME STATUS OUTPUT LINE WORD..: the program, run on standard input, ends with this status and prints just these.
# LINE `*` stands for any text that is not empty.
expect() {
    name=$1 status=$2 output=$3 line=$4
    shift 4
    "$program" "$@" >out 2>err <in
    got=$?
    printf '%b' "$output" >want
    good=yes
    [ "$got" = "$status" ] || good="status $got"
    cmp -s out want || good="$good; output"
    if [ "$line" = '*' ]; then
        [ -s err ] || good="$good; no text on standard error"
    else
        if [ -n "$line" ]; then printf '%s\n' "$line" >want; else : >want; fi
        cmp -s err want || good="$good; standard error: $(cat err)"
    fi
    tell "$name" "$good"
}

nl='
'
printf 'sci 1\nopen\nsend 1 2003 0 0 "hello"\nsend 1 2006 0 0 ""\n' >good.sci
# What it prints, with the notes of the insertion.
answered='= 1 ""\n= 0 ""\n@ 1 2008 1040 0 5 0 0 0 0 0 0 0 0 "hello"\n@ 1 2003 0 0 0 0 0 0 0 0 0 0 0 ""\n@ 1 2008 8209 0 5 0 0 0 0 0 0 0 0 "hello"\n= 5 ""\n'
quiet='= 1 ""\n= 0 ""\n= 5 ""\n'
printf 'sci 2\nopen\nexpect 2\n' >unmet.sci
printf 'sci 1\nopen\nexpect 1\n' >wrong.sci
unknown='line 3: UnknownCommand'
printf 'sci 1\nopen\nsend 1 2003 0 0 "a\n' >cut.sci
printf 'sci 3\n' >three.sci
: >empty.sci
head -c 16777217 /dev/zero | tr '\0' '\n' >long.sci
printf 'sci 1\nopen\nload 1 1\nsend 1 2182 0 0 ""\nload 1 2\nsend 1 2182 0 0 ""\n' >two.sci
printf 'abc' >file
printf 'de' >second
: >in

# Each form of words, status and line.
check_statuses() {
    : >in
    expect 'run' 0 "$answered" '' run good.sci
    expect 'run with a file that no load names' 0 "$answered" '' run good.sci file
    expect 'each of two files' 0 '= 1 ""\n= 0 ""\n= 3 "abc"\n= 0 ""\n= 2 "de"\n' '' run --quiet two.sci file second
    expect 'list' 0 'sci 2\nopen\nsend 1 2003 0 0 "hello"\nsend 1 2006 0 0 ""\n' '' list good.sci
    expect 'check' 0 'ok 3\n' '' check good.sci
    expect 'an expect that is not met' 4 '= 1 ""\n- 2\n' '' run unmet.sci
    expect 'a listing of expects' 0 'sci 2\nopen\nexpect 2\n' '' list unmet.sci
    expect 'a fault of line 3' 1 '' "$unknown" run wrong.sci
    expect 'a fault, listed' 1 '' "$unknown" list wrong.sci
    expect 'a fault, checked' 1 '' "$unknown" check wrong.sci
    expect 'a fault, checked and shown' 1 '' "$unknown$nl    expect 1" check --show wrong.sci
    expect 'a fault, shown, asked for behind the script' 1 '' "$unknown$nl    expect 1" check wrong.sci --show
    expect 'a fault, run without notes' 1 '' "$unknown" run --quiet wrong.sci
    expect 'a fault, stepped' 1 '' "$unknown" step wrong.sci
    expect 'an empty script' 1 '' 'line 1: NoLineEnd' run -
    expect 'a fault of a text' 1 '' 'line 3: BadText' run cut.sci
    expect 'a fault of the first line' 1 '' 'line 1: BadVersion' list three.sci
    expect 'an empty file for a script' 1 '' 'line 1: NoLineEnd' check empty.sci
    expect 'a check does not run' 0 'ok 2\n' '' check unmet.sci
    expect 'a check that shows finds no fault' 0 'ok 2\n' '' check --show unmet.sci
    expect 'a check that shows, of no such script' 3 '' 'read fault' check --show missing.sci
    expect 'a run that shows' 2 '' '*' run --show wrong.sci
    expect 'a script that is too long' 1 '' 'script too long' check long.sci
    expect 'a script that is too long, shown' 1 '' 'script too long' check --show long.sci
    expect 'no such script' 3 '' 'read fault' run missing.sci
    expect 'no such file, before a wrong script' 3 '' 'read fault' run wrong.sci missing
    expect 'a folder for a script' 3 '' 'read fault' check .
    expect 'a folder for a file' 3 '' 'read fault' run good.sci .
    expect 'no such second file' 3 '' 'read fault' run good.sci file missing
    expect 'a script without a name' 3 '' 'read fault' run ''
    expect 'a script behind the flags' 0 "$answered" '' run -- good.sci
    expect 'a script that is called by a dash' 3 '' 'read fault' list -- -x
    expect 'a word that is no text' 2 '' 'error: a word is not UTF-8 text' run "$(printf '\377')"
    expect 'no words' 2 '' '*'
    expect 'an unknown command' 2 '' '*' go good.sci
    expect 'a word too many' 2 '' '*' list good.sci file
    expect 'no script' 2 '' '*' run
    expect 'an unknown flag' 2 '' '*' run --fast good.sci
    expect 'help' 2 '' '*' --help
    for command in run list check step; do
        expect "help of $command" 2 '' '*' "$command" --help
        if grep -q "^  sci_console $command fill.sci" err; then tell "an example of $command" yes; else tell "an example of $command" "$(cat err)"; fi
    done
    expect 'run without notes' 0 "$quiet" '' run --quiet good.sci
    expect 'run without notes, asked for behind the script' 0 "$quiet" '' run good.sci file --quiet
    expect 'run without notes, an expect that is not met' 4 '= 1 ""\n- 2\n' '' run --quiet unmet.sci
    expect 'run without notes, no such file' 3 '' 'read fault' run --quiet good.sci missing
    expect 'a listing without notes' 2 '' '*' list --quiet good.sci
    expect 'steps without notes' 2 '' '*' step --quiet good.sci
    expect 'steps without a script' 2 '' '*' step
    expect 'steps of no such script' 3 '' 'read fault' step missing.sci
    expect 'steps without orders' 0 '' '' step good.sci file
    cp good.sci in
    expect 'run of standard input' 0 "$answered" '' run -
    expect 'run of standard input with a file' 0 "$answered" '' run - file
    expect 'check of standard input' 0 'ok 3\n' '' check -
    : >in

    # A device that is full takes nothing, and what is closed neither takes nor gives.
    for command in run list check 'run --quiet' 'check --show'; do
        if [ -w /dev/full ]; then
            "$program" $command good.sci >/dev/full 2>err
            tell_fault "$command to a full device" $? 3 'write fault'
        fi
        "$program" $command good.sci >&- 2>err
        tell_fault "$command to a closed output" $? 3 'write fault'
        "$program" $command - <&- >out 2>err
        tell_fault "$command of a closed input" $? 3 'read fault'
    done
    # A file that no load names is read all the same, and one that cannot be opened is no file.
    chmod 000 file
    expect_forbidden 'a file that cannot be read' file run good.sci file
    chmod 644 file
    # Where memory is short.
    # shellcheck disable=SC3045 # dash and bash have ulimit -v
    (ulimit -v 8192 && "$program" check long.sci >out 2>err)
    tell_fault 'little memory' $? 1 'out of memory'
}

# fault NAME SCRIPT LINE [SHOWN]: the script, as printf's %b spells it, is refused with this line, and SHOWN is what --show shows of the line at fault.
fault() {
    printf '%b' "$2" >in
    expect "$1" 1 '' "$3" check -
    expect "$1, shown" 1 '' "$3${4:+$nl    $4}" check --show -
    : >in
}

# Each cause of a fault, and which one is named where there are several.
check_faults() {
    fault 'an LF alone' '\n' 'line 1: BadVersion'
    fault 'a version without its LF' 'sci 1' 'line 1: NoLineEnd' 'sci 1'
    fault 'no version and no LF' 'open' 'line 1: NoLineEnd' 'open'
    fault 'a version with a space' 'sci 1 \n' 'line 1: BadVersion' 'sci 1 '
    fault 'a version with a CR' 'sci 1\r\n' 'line 1: BadVersion' 'sci 1\x0d'
    fault 'a version in capitals' 'SCI 1\n' 'line 1: BadVersion' 'SCI 1'
    fault 'a version with a zero before it' 'sci 01\n' 'line 1: BadVersion' 'sci 01'
    fault 'a command without its LF' 'sci 1\nopen' 'line 2: NoLineEnd' 'open'
    fault 'no command, and no LF' 'sci 1\nopened' 'line 2: NoLineEnd' 'opened'
    fault 'an empty line' 'sci 1\n\nopen\n' 'line 2: UnknownCommand'
    fault 'a space before a command' 'sci 1\n open\n' 'line 2: UnknownCommand' ' open'
    fault 'a command with a CR' 'sci 1\nopen\r\n' 'line 2: UnknownCommand' 'open\x0d'
    fault 'a command in capitals' 'sci 1\nOPEN\n' 'line 2: UnknownCommand' 'OPEN'
    fault 'a NUL' 'sci 1\n\0000\n' 'line 2: UnknownCommand' '\x00'
    fault 'a command of version 2' 'sci 1\nexpect 0\n' 'line 2: UnknownCommand' 'expect 0'
    fault 'the first line at fault' 'sci 1\nopen\nclose\nclos\nopen' 'line 3: BadShape' 'close'
    fault 'a space behind a command' 'sci 1\nopen \n' 'line 2: BadShape' 'open '
    fault 'a field too many' 'sci 1\nclose 1 1\n' 'line 2: BadShape' 'close 1 1'
    fault 'an empty number' 'sci 1\nclose \n' 'line 2: BadShape' 'close '
    fault 'two spaces' 'sci 1\nload  1 1\n' 'line 2: BadShape' 'load  1 1'
    fault 'a field too few' 'sci 1\nload 1\n' 'line 2: BadShape' 'load 1'
    fault 'no text' 'sci 1\nsend 1 2006 0 0\n' 'line 2: BadShape' 'send 1 2006 0 0'
    fault 'no opening quote' 'sci 1\nsend 1 2006 0 0 a"\n' 'line 2: BadShape' 'send 1 2006 0 0 a"'
    fault 'something behind a text' 'sci 1\nsend 1 2006 0 0 "" \n' 'line 2: BadShape' 'send 1 2006 0 0 "" '
    fault 'an expect of two values' 'sci 2\nexpect 1 2\n' 'line 2: BadShape' 'expect 1 2'
    for number in +5 05 -0 00 1e3 0x5 x 4294967296 -1 1.0; do
        fault "the number $number of a view" "sci 1\nclose $number\n" 'line 2: BadNumber' "close $number"
    done
    for number in +5 05 -0 -05 - -- 9223372036854775808 -9223372036854775809 99999999999999999999999999; do
        fault "the number $number of an expect" "sci 2\nexpect $number\n" 'line 2: BadNumber' "expect $number"
    done
    fault 'a number with a tab' 'sci 1\nclose 1\t\n' 'line 2: BadNumber' 'close 1\x09'
    fault 'a number before a shape' 'sci 1\nload x\n' 'line 2: BadNumber' 'load x'
    fault 'a shape before a number' 'sci 1\nload  x\n' 'line 2: BadShape' 'load  x'
    fault 'a number before a text' 'sci 1\nsend 1 +5 0 0 "\0200\n' 'line 2: BadNumber' 'send 1 +5 0 0 "\x80'
    for text in '\\x41' '\\x22' '\\x5c' '\\x8' '\\x' '\\x8G' '\\xFF' '\\X80' '\\n' '\\ '; do
        fault "the text $text" "sci 1\nsend 1 1 0 0 \"$text\"\n" 'line 2: BadText' "send 1 1 0 0 \"$(printf '%b' "$text")\""
    done
    fault 'the byte 0x80 as it is' 'sci 1\nsend 1 1 0 0 "\0200"\n' 'line 2: BadText' 'send 1 1 0 0 "\x80"'
    fault 'the byte 0x7F as it is' 'sci 1\nsend 1 1 0 0 "\0177"\n' 'line 2: BadText' 'send 1 1 0 0 "\x7f"'
    fault 'a tab as it is' 'sci 1\nsend 1 1 0 0 "\t"\n' 'line 2: BadText' 'send 1 1 0 0 "\x09"'
    fault 'no closing quote' 'sci 1\nsend 1 1 0 0 "a\\"\n' 'line 2: BadText' 'send 1 1 0 0 "a\"'
    printf 'sci 2\nopen\nexpect -9223372036854775808\nexpect 9223372036854775807\nsend 4294967295 4294967295 0 -1 "\\x80\\"\\\\ ~"\n' >in
    expect 'the least and the greatest numbers' 0 'ok 4\n' '' check -
    cp in same.sci
    expect 'what is listed is what was read' 0 "$(sed 's/\\/\\\\/g' same.sci)\n" '' list -
}

# Runs a command as a user without privileges.
as_nobody() { setpriv --reuid=65534 --regid=65534 --clear-groups "$@"; }

# expect_forbidden NAME FILE WORD..: the program, run with these words, may not read the file, and says that this is a read fault. Root may read
# everything, so root runs the program as another user; where that cannot be done, a line says so and nothing is counted.
expect_forbidden() {
    name=$1 forbidden=$2
    shift 2
    if [ ! -r "$forbidden" ]; then
        expect "$name" 3 '' 'read fault' "$@"
    elif chmod 755 . && cp "$program" unprivileged && as_nobody ./unprivileged check good.sci >out 2>err; then
        as_nobody ./unprivileged "$@" >out 2>err <in
        got=$?
        if [ -s out ]; then tell "$name" 'output'; else tell_fault "$name" $got 3 'read fault'; fi
    else
        echo "statuses: not tried, since this user may read everything: $name"
    fi
}

# bytes N: that many times the letter a.
bytes() { head -c "$1" /dev/zero | tr '\0' a; }

# Lines and scripts of the greatest lengths, and one byte more; and what is shown of long lines.
check_lengths() {
    { printf 'sci 1\nsend 1 2006 0 0 "'; bytes 65518; printf '"\n'; } >in
    expect 'a line of 65,536 bytes' 0 'ok 1\n' '' check -
    { printf 'sci 1\nsend 1 2006 0 0 "'; bytes 65519; printf '"\n'; } >in
    expect 'a line of 65,537 bytes' 1 '' "line 2: LineTooLong$nl    send 1 2006 0 0 \"$(bytes 103)..." check --show -
    { printf 'sci 1\n'; bytes 65536; printf '\n'; } >in
    expect 'no command, of 65,536 bytes' 1 '' "line 2: UnknownCommand$nl    $(bytes 120)..." check --show -
    { printf 'sci 1\n'; bytes 65537; } >in
    expect 'a line too long, without its LF' 1 '' "line 2: LineTooLong$nl    $(bytes 120)..." check --show -
    bytes 65537 >in
    expect 'a version too long' 1 '' "line 1: LineTooLong$nl    $(bytes 120)..." check --show -
    { printf 'sci 1\n'; bytes 120; printf '\n'; } >in
    expect 'a line of 120 bytes is shown whole' 1 '' "line 2: UnknownCommand$nl    $(bytes 120)" check --show -
    { printf 'sci 1\n'; bytes 117; printf '\200a\n'; } >in
    expect 'no escape is cut' 1 '' "line 2: UnknownCommand$nl    $(bytes 117)..." check --show -
    # 256 commands: 255 lines of 65,536 bytes, and one of what is left.
    bytes 65518 >text
    { printf 'sci 1\n'; for line in $(seq 255); do printf 'send 1 2006 0 0 "'; cat text; printf '"\n'; done; printf 'send 1 2006 0 0 "'; bytes 65256; printf '"\n'; } >longest.sci
    [ "$(wc -c <longest.sci)" = 16777216 ] || tell 'the longest script' 'it was not made'
    expect 'a script of 16,777,216 bytes' 0 'ok 256\n' '' check longest.sci
    { printf 'x'; cat longest.sci; } >in
    expect 'a script of 16,777,217 bytes' 1 '' 'script too long' check -
    head -c 16777216 long.sci >in
    expect 'no script, of 16,777,216 bytes' 1 '' 'line 1: BadVersion' check -
    : >in
}

# Each prefix of a worked script: it ends with a line, or in the midst of one.
check_prefixes() {
    printf 'sci 2\nopen\nload 1 1\nsend 1 2003 -1 0 "a\\x80\\""\nexpect 0\nclose 1\n' >worked.sci
    length=$(wc -c <worked.sci) count=0
    while [ "$count" -le "$length" ]; do
        head -c "$count" worked.sci >in
        lines=$(wc -l <in)
        # shellcheck disable=SC2094 # `lines` is a number in the one place and a file in the other
        head -n "$lines" in >lines
        if [ "$lines" -gt 0 ] && cmp -s in lines; then
            expect "the first $count bytes" 0 "ok $((lines - 1))\n" '' check -
        else
            line="line $((lines + 1)): NoLineEnd" rest=$(tail -n +$((lines + 1)) in)
            expect "the first $count bytes" 1 '' "$line" check -
            expect "the first $count bytes, shown" 1 '' "$line${rest:+$nl    $rest}" check --show -
        fi
        count=$((count + 1))
    done
    : >in
}

# What a session of steps shows, and how it ends.
check_steps() {
    tour=$top/examples/steps
    cp "$tour/tour.orders" in
    "$program" step "$tour/tour.sci" "$tour/tour.file1" <in >out 2>err
    got=$?
    if [ "$got" = 0 ] && [ ! -s err ] && cmp -s out "$tour/tour.shown"; then tell 'a tour of steps' yes; else tell 'a tour of steps' "status $got; $(diff out "$tour/tour.shown" | head -n 3) $(cat err)"; fi
    printf 'n\nq\nn\n' >in
    expect 'steps that are ended' 0 'command 1: open a view\n  answer 1, the id of the view\n' '' step good.sci
    printf 'n' >in
    expect 'an order without its LF' 0 'command 1: open a view\n  answer 1, the id of the view\n' '' step good.sci
    printf 'b\ng 4\ng 99999999999999999999\n' >in
    expect 'places that the script does not have' 0 'there is no such place; 0 of 3 commands are done\nthere is no such place; 0 of 3 commands are done\nn next, b back, g N go to N, t text, l lines, h history, q quit: each on a line of its own\n' '' step good.sci
    bytes 100000 >in
    expect 'a long line of orders' 0 'n next, b back, g N go to N, t text, l lines, h history, q quit: each on a line of its own\n' '' step good.sci
    printf 'sci 2\nopen\nsend 1 2003 0 0 "ab"\nsend 1 2006 0 0 ""\nexpect 2\n' >expects.sci
    printf 'g 3\nt\nl\nh\nn\n' >in
    "$program" step expects.sci <in >out 2>err
    if [ "$(tail -n 2 out)" = "command 4: expect 2$nl  met" ]; then tell 'looks leave what is expected' yes; else tell 'looks leave what is expected' "$(tail -n 2 out)"; fi
    # The caret behind the last byte, behind an LF, and before a selection; each stands below one line alone.
    printf 'sci 1\nopen\nsend 1 2003 0 0 "ab\\x0acd"\nsend 1 2025 5 0 ""\nsend 1 2025 3 0 ""\nsend 1 2160 4 1 ""\n' >carets.sci
    printf 'g 3\nt\ng 4\nt\ng 5\nt\n' >in
    "$program" step carets.sci <in 2>err | sed -e '/^[0-9v]/d' -e 's/^ *//' >out
    printf '0 | ab\\x0a\n1 | cd\n^\n0 | ab\\x0a\n1 | cd\n^\n0 | ab\\x0a\n^~~~~\n1 | cd\n~\n' >want
    if cmp -s out want; then tell 'carets' yes; else tell 'carets' "$(diff out want | head -n 4)"; fi
    printf 'n\n' >in
    "$program" step good.sci <in >&- 2>err
    tell_fault 'steps to a closed output' $? 3 'write fault'
    "$program" step good.sci <&- >out 2>err
    tell_fault 'orders of a closed input' $? 3 'read fault'
    cp good.sci in
    expect 'a script of standard input leaves no orders' 0 '' '' step -
    : >in
}

# tell_sink NAME GOT STATUS LINE SINK PRINTED: as tell_fault, and what stands on the sink is a part of what is printed, from its first byte on.
tell_sink() {
    head -c "$(wc -c <"$5")" "$6" >want
    if cmp -s "$5" want; then tell_fault "$1" "$2" "$3" "$4"; else tell "$1" 'the sink'; fi
}

# wait_for FILE TEXT: until the file has a line with this text.
wait_for() {
    tries=0
    until grep -q "$2" "$1" || [ "$tries" = 500 ]; do
        tries=$((tries + 1))
        sleep 0.02
    done
}

# The program's outside: folders, pipes that end or that nobody reads, full devices and files, names, files that grow or are too long, signals.
check_outside() {
    # A script that prints more than a pipe holds, and all that it prints.
    { printf 'sci 1\nopen\nsend 1 2003 0 0 "%s"\n' "$(bytes 60000)"; for line in 1 2 3 4 5 6 7 8; do printf 'send 1 2182 0 0 ""\n'; done; } >wide.sci
    "$program" run wide.sci >printed 2>err
    tell_fault 'a script that prints much' $? 0 ''
    yes n | head -n 10 >wide.orders
    mkdir folder

    # A folder.
    for command in run list check 'run --quiet'; do
        "$program" $command - <folder >out 2>err
        tell_fault "$command of a folder as standard input" $? 3 'read fault'
        expect "$command of a folder" 3 '' 'read fault' $command folder
    done
    "$program" step good.sci <folder >out 2>err
    tell_fault 'orders of a folder' $? 3 'read fault'
    expect 'a script below a file' 3 '' 'read fault' run good.sci/good.sci
    ln -s loop loop
    expect 'a link to itself' 3 '' 'read fault' run loop
    expect 'a name that is too long' 3 '' 'read fault' run "$(bytes 300)"

    # A pipe that nobody reads any more, and one that is written in pieces, or ends amid a line or a script.
    { "$program" run wide.sci 2>err; echo $? >status; } | head -c 1000 >sink
    tell_sink 'a pipe that nobody reads any more' "$(cat status)" 3 'write fault' sink printed
    { "$program" step wide.sci 2>err <wide.orders; echo $? >status; } | head -c 10 >sink
    tell_fault 'steps to a pipe that nobody reads any more' "$(cat status)" 3 'write fault'
    { for line in 1 2 3 4; do sed -n "${line}p" good.sci; sleep 0.05; done; } | "$program" run - >out 2>err
    got=$?
    printf '%b' "$answered" >want
    if cmp -s out want; then tell_fault 'a script that comes line by line' $got 0 ''; else tell 'a script that comes line by line' 'output'; fi
    { printf 'sci 1\nop'; sleep 0.1; printf 'en\nopen'; } | "$program" run - >out 2>err
    tell_fault 'a pipe that ends amid a line' $? 1 "line 3: NoLineEnd"
    if [ -s out ]; then tell 'nothing is printed before a script is whole' 'output'; else tell 'nothing is printed before a script is whole' yes; fi
    mkfifo fifo
    { sleep 0.1; printf 'abc'; sleep 0.1; printf 'de'; } >fifo &
    expect 'a FILE that is a pipe' 0 '= 1 ""\n= 0 ""\n= 5 "abcde"\n= 0 ""\n= 2 "de"\n' '' run --quiet two.sci fifo second
    wait $!

    # A device, a file or a disk that is full.
    if [ -w /dev/full ]; then
        "$program" run wide.sci >/dev/full 2>err
        tell_fault 'much to a full device' $? 3 'write fault'
        "$program" step wide.sci <wide.orders >/dev/full 2>err
        tell_fault 'steps to a full device' $? 3 'write fault'
    fi
    (trap '' XFSZ; ulimit -f 8; "$program" run wide.sci >sink 2>err)
    tell_sink 'a file that may not grow' $? 3 'write fault' sink printed
    if [ -s sink ]; then tell 'a file that may not grow has what fits' yes; else tell 'a file that may not grow has what fits' 'nothing'; fi
    # What is closed: standard error takes no line then, and the status is the same.
    "$program" run wrong.sci >out 2>&-
    if [ $? = 1 ] && [ ! -s out ]; then tell 'a fault, with standard error closed' yes; else tell 'a fault, with standard error closed' 'status or output'; fi
    "$program" run good.sci >&- 2>&-
    if [ $? = 3 ]; then tell 'all closed' yes; else tell 'all closed' 'status'; fi
    "$program" <&- >out 2>err
    if [ $? = 2 ] && [ -s err ] && [ ! -s out ]; then tell 'usage, with standard input closed' yes; else tell 'usage, with standard input closed' 'status or output'; fi

    # No permission.
    cp file secret && chmod 000 secret
    mkdir shut && cp file shut/file && chmod 000 shut
    for closed in secret shut/file; do
        expect_forbidden "no permission for $closed" $closed run good.sci $closed
        expect_forbidden "no permission for the script $closed" $closed check $closed
    done

    # Names that are no UTF-8 text, of files that are there.
    foreign=$(printf 'a\377')
    cp good.sci "$foreign"
    for command in run list check step; do
        expect "$command of a name that is no text" 2 '' 'error: a word is not UTF-8 text' $command "$foreign"
    done
    expect 'a FILE with a name that is no text' 2 '' 'error: a word is not UTF-8 text' run good.sci "$foreign"
    cp good.sci 'né ☃'
    expect 'a name that is not ASCII' 0 "$answered" '' run 'né ☃'

    # A file that grows while it is read: its text is that of some length that it had.
    printf 'sci 1\nopen\nload 1 1\nsend 1 2006 0 0 ""\n' >length.sci
    bytes 8000000 >grows
    (for _ in $(seq 300); do bytes 4096; done >>grows) &
    "$program" run --quiet length.sci grows >out 2>err
    got=$?
    wait $!
    length=$(sed -n '3s/^= \([0-9]*\) ""$/\1/p' out)
    if [ "${length:-0}" -ge 8000000 ] && [ "$length" -le 9228800 ]; then tell_fault 'a FILE that grows' $got 0 ''; else tell 'a FILE that grows' "length $length, status $got"; fi
    cp good.sci grows.sci
    (for _ in $(seq 300); do printf 'send 1 2006 0 0 ""\n'; done >>grows.sci) &
    "$program" check grows.sci >out 2>err
    got=$?
    wait $!
    count=$(sed -n 's/^ok \([0-9]*\)$/\1/p' out)
    if [ "$got" = 0 ] && [ "$count" -ge 3 ] && [ "$count" -le 303 ]; then tell 'a script that grows' yes; else tell 'a script that grows' "status $got, $(cat out err)"; fi

    # 2^31 bytes and more, which take no disk; an endless script, an empty FILE.
    truncate -s 2147483648 long
    expect 'a script of 2^31 bytes' 1 '' 'script too long' check long
    # It is read up to there: 2 GiB of memory.
    if [ "$(sed -n 's/^MemAvailable: *\([0-9]*\) kB$/\1/p' /proc/meminfo)" -ge 4194304 ]; then
        expect 'a FILE of 2^31 bytes' 3 '' 'read fault' run length.sci long
    else
        echo 'statuses: too little memory here for a FILE of 2^31 bytes: that row is left out'
    fi
    rm -f long
    expect 'an endless script' 1 '' 'script too long' run /dev/zero
    expect 'a FILE without bytes' 0 '= 1 ""\n= 0 ""\n= 0 ""\n' '' run --quiet length.sci /dev/null

    # Signals between two lines. The default stands: the program ends by the signal, prints no line of its own, and what it wrote stays.
    signals='HUP:129 INT:130 TERM:143 KILL:137'
    # What `nohup` starts takes no notice of HUP, and neither does this script then nor a program of it.
    if sh -c 'kill -HUP $$; exit 0' 2>/dev/null; then
        echo 'statuses: HUP has no effect here: that row is left out'
        signals=${signals#HUP:129 }
    fi
    for signal in $signals; do
        rm -f orders && mkfifo orders
        : >out
        (exec "$program" step good.sci <orders >out 2>err) &
        stepping=$!
        exec 9>orders
        printf 'n\n' >&9
        wait_for out 'answer 1'
        [ "$signal" = INT:130 ] || kill -"${signal%:*}" "$stepping"
        # A program in the background of a script takes no notice of INT: it goes on.
        [ "$signal" != INT:130 ] || { kill -INT "$stepping"; printf 'q\n' >&9; }
        { wait "$stepping"; } 2>/dev/null
        got=$?
        exec 9>&-
        printf 'command 1: open a view\n  answer 1, the id of the view\n' >want
        wanted=${signal#*:}
        [ "$signal" != INT:130 ] || wanted=0
        if cmp -s out want; then tell_fault "a signal, ${signal%:*}, between two orders" $got "$wanted" ''; else tell "a signal, ${signal%:*}, between two orders" "status $got, $(cat out)"; fi
    done
    (exec "$program" run - <fifo >out 2>err) &
    running=$!
    exec 9>fifo
    printf 'sci 1\nopen\n' >&9
    sleep 0.1
    kill -STOP "$running" && sleep 0.1 && kill -CONT "$running"
    printf 'send 1 2006 0 0 ""\n' >&9
    exec 9>&-
    wait "$running"
    got=$?
    printf '= 1 ""\n= 0 ""\n' >want
    if cmp -s out want; then tell_fault 'a program that is stopped between two lines, and goes on' $got 0 ''; else tell 'a program that is stopped between two lines, and goes on' "$(cat out)"; fi
    (exec "$program" run - <fifo >out 2>err) &
    running=$!
    exec 9>fifo
    printf 'sci 1\nopen\n' >&9
    sleep 0.1
    kill -TERM "$running"
    { wait "$running"; } 2>/dev/null
    tell_fault 'a signal between two lines of a script' $? 143 ''
    exec 9>&-
    if [ -s out ]; then tell 'a signal before a script is whole leaves nothing' 'output'; else tell 'a signal before a script is whole leaves nothing' yes; fi
    chmod 755 shut
    rm -rf folder shut secret fifo orders loop grows grows.sci "$foreign" 'né ☃' unprivileged
}

for program in "$out/sci_console" "$out/sci_console.by-rattle"; do
    if [ -x "$program" ]; then
        check_statuses
        check_outside
        check_faults
        check_lengths
        check_prefixes
        check_steps
    else
        echo "statuses: $(basename "$program") was not built, so it is not tried"
    fi
done
echo "statuses: $passed passed, $failed failed"
[ "$failed" = 0 ]
