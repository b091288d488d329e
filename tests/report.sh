# The report program on the samples and on input that is no job file, and the front door. Read by tests/run, whose `step` counts each.
here=$(pwd)
report="'$here/crates/report/out/report'"
door="'$here/carolwindow'"
case_7='k 2 jobs 2 miss 1
0 3 11 9
1 5 15 -1
pattern 0 2'

# says TEXT COMMAND: the command, read by sh, prints this text and nothing on standard error; its status is 0, and ten seconds are enough.
says() {
    timeout 10 sh -c "$2" >$out/said 2>$out/complained
    [ $? = 0 ] && printf '%s\n' "$1" | cmp - $out/said && [ ! -s $out/complained ]
}

# complains TEXT COMMAND: it prints nothing, ends standard error with this line, and its status is 2.
complains() {
    timeout 10 sh -c "$2" >$out/said 2>$out/complained
    [ $? = 2 ] && tail -n 1 $out/complained >$out/last && echo "carolwindow: $1" | cmp - $out/last && [ ! -s $out/said ]
}

# complains_only TEXT COMMAND: that line is the only one.
complains_only() {
    complains "$@" && cmp $out/last $out/complained
}

sample() {
    sh -c "$report <'$1'" | cmp - "${1%.job}.report"
}

# The longest report: 64 times (1000000,100000,0,100000), k 8. Job 0 is named, and only eight failures of its own make it that late.
longest() {
    row='\022\000\002\000\100\102\017\000\240\206\001\000\000\000\000\000\240\206\001\000'
    counts=' 8'
    job=0
    printf '\003\000\001\000\010' >$out/longest.job
    echo 'k 8 jobs 64 miss 0' >$out/longest.report
    while [ $job -lt 64 ]; do
        early=$((1100000 + job * 100000))
        printf "$row" >>$out/longest.job
        echo "$job $early $((early + 800000)) -$((early + 800000))" >>$out/longest.report
        [ $job = 0 ] || counts="$counts 0"
        job=$((job + 1))
    done
    echo "pattern$counts" >>$out/longest.report
    sample $out/longest.job
}

# A second door, in a folder with a space in its name, where nothing is built, with a stand-in for `rt` that notes its calls.
second="$here/$out/a door"
mkdir -p "$second/crates/report" $out/tools
cp carolwindow "$second"
: >"$second/crates.txt"
for tool in sh cat dirname readlink find head mkdir touch cp rm; do ln -sf "$(command -v $tool)" $out/tools/$tool; done
cut_short="PATH='$here/$out/tools' '$second/carolwindow' report samples/cut-short.job"
stand_in() {
    printf '#!/bin/sh\necho "$*" >>../../calls\n%s\n' "$1" >$out/tools/rt
    chmod +x $out/tools/rt
}
builds() {
    stand_in "mkdir -p out; cp $report out"
    says 'refused 20 at 65' "$cut_short 2>$out/told" &&
        [ "$(wc -l <$out/told)" -eq 1 ] && grep -q 'some minutes' $out/told && [ "$(cat "$second/calls")" = run ]
}
builds_once() {
    says 'refused 20 at 65' "$cut_short" && [ "$(cat "$second/calls")" = run ]
}
cannot_build() {
    touch -t 200001010000 "$second/crates/report/out/report"
    stand_in 'exit 1'
    complains "the report program could not be proved and built: see $second/target/report.log" "$cut_short" &&
        [ "$(wc -l <"$second/calls")" -eq 2 ] && [ ! -e "$second/crates/report/out/report" ]
}

step 'report program' sh -c "cd crates/report && rt run </dev/null && [ -x $report ] && touch $report"
for job in samples/*.job; do step "report on $job" sample "$job"; done
step 'report on case 7' says "$case_7" "$report <$out/miss.job"
step 'report on case 14, cut off' says 'refused 20 at 5' "printf '$case_2' | head -c 24 | $report"
step 'report, the longest' longest
step 'report on no bytes' says 'k 2 jobs 0 sound' "$report </dev/null"
step 'report on 32,768 bytes' says 'refused 21 at 1285' "cat samples/full-frame.job /dev/zero | head -c 32768 | $report"
step 'report on 32,769 bytes' says 'too long' "cat samples/full-frame.job /dev/zero | head -c 32769 | $report"
step 'report on input without end' says 'too long' "$report </dev/zero"
step 'report on a directory' says 'unreadable' "$report <samples"
step 'report on closed input' says 'unreadable' "$report <&-"
step 'report on input in pieces' says 'refused 20 at 65' \
    "{ head -c 30 samples/cut-short.job; sleep 1; tail -c +31 samples/cut-short.job; } | $report"

step 'door, a file' says "$case_7" "$door report $out/miss.job"
step 'door, standard input' says "$case_7" "$door report <$out/miss.job"
step 'door, standard input by its sign' says "$case_7" "$door report - <$out/miss.job"
step 'door, from another folder, a name with a dash and a space' \
    says "$case_7" "cd $out && cp miss.job './-a miss.job' && $door report '-a miss.job'"
step 'door, through a link' says "$case_7" "ln -s $door $out/link && $out/link report $out/miss.job"
step 'door, input that is a directory' says 'unreadable' "$door report <samples"
for word in help -h --help; do step "door, $word" sh -c "$door $word | grep -q 'carolwindow report'"; done
step 'door, no word' complains_only 'what is to be done? ./carolwindow --help says what there is' "$door"
step 'door, unknown word' complains_only "there is no 'judge'; ./carolwindow --help says what there is" "$door judge"
step 'door, too many words' complains_only 'report takes one file, and got 2 words' "$door report a b"
step 'door, no such file' complains_only "there is no file 'no such'" "$door report 'no such'"
step 'door, an empty name' complains_only "there is no file ''" "$door report ''"
step 'door, a directory' complains_only "'samples' is a directory, not a job file" "$door report samples"
step 'door, closed input' complains_only 'standard input is closed' "$door report <&-"
step 'door, no room for the report' complains_only 'the report could not be printed' "$door report $out/miss.job >/dev/full"
if [ "$(id -u)" != 0 ]; then # root may read every file
    step 'door, a file that may not be read' \
        complains_only "'$out/shut' may not be read" ": >$out/shut; chmod 0 $out/shut; $door report $out/shut"
fi
step 'door, no toolchain' complains_only \
    'the report program has yet to be proved and built, and rt of the Rattle toolchain is not on PATH' "$cut_short"
step 'door, builds the first time' builds
step 'door, builds only once' builds_once
step 'door, a build that fails' cannot_build
