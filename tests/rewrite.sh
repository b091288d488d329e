# The rewriting program, byte for byte, and its word of the front door. What 02 says of an input is put together here from the input's own bytes. Read by
# tests/run after tests/report.sh, whose `says` and `complains_only` it uses.
rewrite="'$here/crates/rewrite/out/rewrite'"
head_of_1='\003\000\001\000\001'
older=samples/older-camera.job

# gives FILE COMMAND: the command, read by sh, prints exactly the bytes of this file and nothing on standard error; its status is 0.
gives() {
    timeout 10 sh -c "$2" >$out/given 2>$out/complained
    [ $? = 0 ] && cmp "$1" $out/given && [ ! -s $out/complained ]
}

# instead TEXT COMMAND: it prints nothing, and this line alone on standard error; its status is 1.
instead() {
    timeout 10 sh -c "$2" >$out/given 2>$out/complained
    [ $? = 1 ] && printf '%s\n' "$1" | cmp - $out/complained && [ ! -s $out/given ]
}

# with_head FILE: the file, after a head of 1 unless it starts with a head: length 3, kind 1.
with_head() {
    [ "$(head -c 4 "$1" | od -An -tx1)" = ' 03 00 01 00' ] || printf "$head_of_1"
    cat "$1"
}

# A refused sample gets the line of its report.
sample_rewritten() {
    if grep -q '^refused' "${1%.job}.report"; then cat "${1%.job}.report"; else with_head "$1"; fi >$out/expected
    gives $out/expected "$rewrite <'$1'"
}

: >$out/empty.job
printf "$head_of_1" >$out/head.job
printf "$job_0$job_1" >$out/headless.job
printf "$head_of_1$job_0$job_1" >$out/headed.job
tail -c +6 samples/full-frame.job >$out/full.job
with_head $out/full.job >$out/full-headed.job

step 'rewriting program' sh -c "cd crates/rewrite && rt run </dev/null && [ -x $rewrite ] && touch $rewrite"
for job in samples/*.job; do step "rewrite $job" sample_rewritten "$job"; done
step 'rewrite the older sample' gives samples/older-camera-rewritten.job "$rewrite <$older"
step 'rewrite no bytes' gives $out/head.job "$rewrite <$out/empty.job"
step 'rewrite a head alone' gives $out/head.job "$rewrite <$out/head.job"
step 'rewrite case 7 with k 2' gives $out/miss.job "$rewrite <$out/miss.job"
step 'rewrite case 7 without its head' gives $out/headed.job "$rewrite <$out/headless.job"
step 'rewrite it twice' gives $out/headed.job "$rewrite <$out/headless.job | $rewrite"
step 'rewrite 64 jobs without a head' gives $out/full-headed.job "$rewrite <$out/full.job"
step 'rewrite 65 jobs' says 'refused 24 at 1280' "cat $out/full.job $out/full.job | head -c 1300 | $rewrite"
step 'rewrite a head after a job' says 'refused 23 at 20' "cat $out/headless.job $out/head.job | tail -c 25 | $rewrite"
step 'rewrite a file cut off' says 'refused 20 at 20' "head -c 39 $out/headless.job | $rewrite"
step 'rewrite 32,768 bytes' says 'refused 21 at 1280' "cat $out/full.job /dev/zero | head -c 32768 | $rewrite"
step 'rewrite 32,769 bytes' says 'too long' "cat $out/full.job /dev/zero | head -c 32769 | $rewrite"
step 'rewrite input without end' says 'too long' "$rewrite </dev/zero"
step 'rewrite a directory' says 'unreadable' "$rewrite <samples"
step 'rewrite closed input' says 'unreadable' "$rewrite <&-"
step 'rewrite input in pieces' gives $out/headed.job "{ head -c 7 $out/headless.job; sleep 1; tail -c +8 $out/headless.job; } | $rewrite"
step 'report on no head' says 'k 2 jobs 0 sound' "$report <$out/empty.job"
step 'report on what was rewritten' says 'k 1 jobs 0 sound' "$rewrite <$out/empty.job | $report"

step 'door, rewrite a file' gives samples/older-camera-rewritten.job "$door rewrite $older"
step 'door, rewrite standard input' gives samples/older-camera-rewritten.job "$door rewrite <$older"
step 'door, rewrite no bytes' gives $out/head.job "$door rewrite </dev/null"
step 'door, rewrite 64 jobs' gives samples/full-frame.job "$door rewrite - <samples/full-frame.job"
step 'door, rewrite a refused file' instead 'refused 20 at 65' "$door rewrite samples/cut-short.job"
step 'door, rewrite too long a file' instead 'too long' "head -c 40000 /dev/zero | $door rewrite"
step 'door, rewrite a directory as input' instead 'unreadable' "$door rewrite <samples"
step 'door, rewrite no such file' complains_only "there is no file 'no such'" "$door rewrite 'no such'"
step 'door, rewrite too many words' complains_only 'rewrite takes one file, and got 2 words' "$door rewrite a b"
step 'door, rewrite closed input' complains_only 'standard input is closed' "$door rewrite <&-"
step 'door, rewrite, no room for the file' complains_only 'the file could not be printed' "$door rewrite $older >/dev/full"
step 'door, rewrite, no room for the answer' complains_only 'there is no room for the answer' "TMPDIR=$out/none $door rewrite $older"
step 'door, rewrite over itself' \
    complains_only 'the file would be printed over the one that is read' "cp $older $out/over.job; $door rewrite $out/over.job >>$out/over.job"
step 'door, rewrite over itself, unchanged' cmp $older $out/over.job
step 'door, rewrite leaves nothing behind' \
    sh -c "mkdir $out/tmp && for job in samples/*.job; do TMPDIR=$out/tmp $door rewrite \$job; done >/dev/null 2>&1; rmdir $out/tmp"
