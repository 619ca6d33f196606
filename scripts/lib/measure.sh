# What scripts share that refuse a program memory, count its instructions, or give it a chain of
# filters. They read it by `.`, with $top as the checkout and $program as the program.

# refuses FOLDER: compiles what refuses requests for memory, as FOLDER/refuse.so.
refuses() {
    cc -O2 -shared -fPIC -o "$1/refuse.so" "$top/scripts/lib/refuse-memory.c" -ldl || exit 1
    refuser=$1/refuse.so
}

# run NUMBER WORD..: the program on these words, with that request for memory refused. With 0 none
# is, and file descriptor 9 gets how many there were, of how many bytes, and how many threads.
run() {
    number=$1
    shift
    REFUSED=$number LD_PRELOAD=$refuser "$program" "$@"
}

# counted WORD..: the instructions of the program on these words, as valgrind counts them.
counted() {
    valgrind --tool=cachegrind --cache-sim=no --cachegrind-out-file=/dev/null \
        "$program" "$@" 2>&1 > /dev/null |
        awk '/I *refs:/ { gsub(",", "", $NF); print $NF }'
}

# samples COUNT: so many samples of up to seven digits.
samples() {
    awk -v count="$1" 'BEGIN {
        srand(1)
        for (i = 0; i < count; i++) print int(rand() * 2000001) - 1000000
    }'
}

# chain FILTERS BOUND [SHIFT]: a source of samples.csv, so many filters of 64 taps one behind the
# other, and a sink, on phasers of this bound; 12 is the shift where none is said, by which values
# grow from filter to filter.
chain() {
    awk -v filters="$1" -v bound="$2" -v shift="${3:-12}" 'BEGIN {
        for (j = 0; j < 64; j++) taps = taps " " (j % 2 == 0 ? 1000 + j : j - 900)
        for (f = 0; f <= filters; f++) print "phaser X" f " sum " bound
        print "source s samples.csv -> X0"
        for (f = 0; f < filters; f++)
            print "fir f" f " X" f " -> X" f + 1 " shift " shift " taps" taps
        print "sink out X" filters
    }'
}

# bank BRANCHES BOUND: a source of samples.csv and one of zeros.csv, and so many branches, of which
# each deals what a filter of 32 taps makes, joins a half with zeros and filters that again; their
# answers are added up on one phaser. All phasers have this bound.
bank() {
    awk -v branches="$1" -v bound="$2" 'BEGIN {
        for (j = 0; j < 32; j++) taps = taps " " (j % 2 == 0 ? 1000 + j : j - 900)
        count = split("A B C D", names, " ")
        print "phaser X sum " bound "\nphaser Z sum " bound
        for (i = 1; i <= count; i++)
            for (k = 0; k < branches; k++) print "phaser " names[i] k " sum " bound
        print "phaser Y sum " bound "\nsource s samples.csv -> X\nsource z zeros.csv -> Z"
        for (k = 0; k < branches; k++) {
            print "fir f" k " X -> A" k " shift 12 taps" taps
            print "split d" k " A" k " -> B" k " C" k "\njoin j" k " B" k " Z -> D" k
            print "fir g" k " D" k " -> Y shift 12 taps" taps
        }
        print "sink out Y"
    }'
}
