#compdef ztso ztso-allowed ztso-certify ztso-channel-text ztso-chart-lines ztso-compare-mappings ztso-core-log-to-record ztso-for-ci ztso-from-c ztso-from-herd ztso-from-object ztso-make-rust-core ztso-merge-tries ztso-page ztso-queue ztso-to-litmus-log ztso-tries-over-machines -p (*/|)tools/(allowed|certify|channel-text|chart-lines|compare-mappings|core-log-to-record|for-ci|from-c|from-herd|from-object|make-rust-core|merge-tries|page|queue|to-litmus-log|tries-over-machines)
# Completes the words of ztso and its tools in zsh, as the file _ztso of a folder of fpath. Made by scripts/make-commands.
_ztso_tool() {
    local help="$(${(Q)words[1]} --help 2> /dev/null)" last=$words[CURRENT-1]
    local shape="[[ ]$last ([a-z0-9]+([|][a-z0-9]+)+)"
    local -a options
    # else a command that is known by its path is completed by files as well
    _compskip=all
    if [[ $last == --* && $help =~ $shape ]]; then
        options=(${(s:|:)match[1]})
    elif [[ $words[CURRENT] == -* ]]; then
        options=(${(fu)"$(grep -oE -- '--[a-z][a-z-]*' <<< $help)"})
    else
        _files
        return
    fi
    compadd -a options
}
_ztso() {
    if [[ ${words[1]:t} != ztso ]]; then
        _ztso_tool
        return
    fi
    if ((CURRENT == 2)); then
        local -a commands=(
            'run:the last state and the verdict'
            'replay:what happened'
            'move:the schedule'\''s text of version 2'
            'shrink:a schedule with the same outcome'
            'chart:a picture of the run'
            'show:what its test is'
            'debug:the answer to each command'
            'check:which records are accepted'
            'find:a shortest schedule that shows what is asked for'
            'try:the outcomes of N drawn schedules of L events'
            'threads:the schedule that threads of the system made'
            'channel:what the receiver reports'
            'ring:whether N drawn runs of L events report clean'
            'callers:whether N drawn runs keep what callers owe'
            'queue:whether every run keeps each queue'\''s protocol'
            'steps:the last state'
            'asm:words in hex'
            'dis:instructions'
        )
        _describe command commands
        return
    fi
    shift words
    ((CURRENT--))
    case $words[1] in
    run)
        _arguments \
            '--buffer[a hart'\''s store buffer holds N stores: 1, 2, 4 or 16; 4 if it is left out]:N:(1 2 4 16)' \
            '1:FILE:_files' \
            '2:SCHEDULE:_files'
        ;;
    replay)
        _arguments \
            '--buffer[a hart'\''s store buffer holds N stores: 1, 2, 4 or 16; 4 if it is left out]:N:(1 2 4 16)' \
            '1:FILE:_files' \
            '2:SCHEDULE:_files'
        ;;
    move)
        _arguments \
            '--buffer[a hart'\''s store buffer holds N stores: 1, 2, 4 or 16; 4 if it is left out]:N:(1 2 4 16)' \
            '1:FILE:_files' \
            '2:SCHEDULE:_files'
        ;;
    shrink)
        _arguments \
            '--buffer[a hart'\''s store buffer holds N stores: 1, 2, 4 or 16; 4 if it is left out]:N:(1 2 4 16)' \
            '1:FILE:_files' \
            '2:SCHEDULE:_files'
        ;;
    chart)
        _arguments \
            '--buffer[a hart'\''s store buffer holds N stores: 1, 2, 4 or 16; 4 if it is left out]:N:(1 2 4 16)' \
            '--svg[the picture is written as SVG, for a browser]' \
            '--memory[rows of instructions that only compute or jump are left out]' \
            '1:FILE:_files' \
            '2:SCHEDULE:_files'
        ;;
    show)
        _arguments \
            '--buffer[a hart'\''s store buffer holds N stores: 1, 2, 4 or 16; 4 if it is left out]:N:(1 2 4 16)' \
            '--steps[the test'\''s opening as a steps text]' \
            '1:FILE:_files'
        ;;
    debug)
        _arguments \
            '--buffer[a hart'\''s store buffer holds N stores: 1, 2, 4 or 16; 4 if it is left out]:N:(1 2 4 16)' \
            '1:FILE:_files' \
            '2:SCHEDULE:_files'
        ;;
    check)
        _arguments \
            '--buffer[a hart'\''s store buffer holds N stores: 1, 2, 4 or 16; 4 if it is left out]:N:(1 2 4 16)' \
            '1:FILE:_files'
        ;;
    find)
        _arguments \
            '--buffer[a hart'\''s store buffer holds N stores: 1, 2, 4 or 16; 4 if it is left out]:N:(1 2 4 16)' \
            '--states[at most N distinct states are seen, 1 to 16777216; 1000000 if it is left out]:N:()' \
            '1:FILE:_files'
        ;;
    try)
        _arguments \
            '--buffer[a hart'\''s store buffer holds N stores: 1, 2, 4 or 16; 4 if it is left out]:N:(1 2 4 16)' \
            '--seed[the generator'\''s seed, 0 to 18446744073709551615]:S:()' \
            '--runs[how many schedules are drawn, 1 to 100000]:N:()' \
            '--length[how many events each schedule has, 0 to 1048576]:L:()' \
            '--skip[the first K runs of the seed are passed over, 0 to 18446744073709551615; 0 if it is left out]:K:()' \
            '--draw[how schedules are drawn, each event by itself or in bursts of one hart: uniform or bursts; uniform if it is left out]:DRAW:(uniform bursts)' \
            '--unfinished[the last line ends with the schedule of the first run that didn'\''t finish]' \
            '--jobs[J threads share the runs, with the same output, 1 to 64; 1 if it is left out]:J:()' \
            '1:FILE:_files'
        ;;
    threads)
        _arguments \
            '--buffer[a hart'\''s store buffer holds N stores: 1, 2, 4 or 16; 4 if it is left out]:N:(1 2 4 16)' \
            '--turns[how many turns a thread takes at most, 0 to 10000000; 100000 if it is left out]:T:()' \
            '1:FILE:_files'
        ;;
    channel)
        _arguments \
            '--buffer[a hart'\''s store buffer holds N stores: 1, 2, 4 or 16; 4 if it is left out]:N:(1 2 4 16)' \
            '--base[the first block begins at byte A of memory, a multiple of 4, 0 to 4294967295; 0 if it is left out]:A:()' \
            '--stride[each block begins T bytes after the one before it, a multiple of 4 and at least 16 + 4 RING, as it is if it is left out, 0 to 4294967295]:T:()' \
            '--finish[after the schedule a plan runs, until each list is taken and each sender closed; not with own]' \
            '--sender[the program of each sender, as assembly: with own, and only there]:SENDER:_files' \
            '--receiver[the program of the receiver, as assembly: with own, and only there]:RECEIVER:_files' \
            '1:KIND:(lamport fastforward cached own)' \
            '2:RING:()' \
            '3:SCHEDULE:_files'
        ;;
    ring)
        _arguments \
            '--buffer[a hart'\''s store buffer holds N stores: 1, 2, 4 or 16; 4 if it is left out]:N:(1 2 4 16)' \
            '--seed[the generator'\''s seed, 0 to 18446744073709551615]:S:()' \
            '--runs[how many schedules are drawn, 1 to 100000]:N:()' \
            '--length[how many events each schedule has, 0 to 1048576]:L:()' \
            '--skip[the first K runs of the seed are passed over, 0 to 18446744073709551615; 0 if it is left out]:K:()' \
            '--draw[how schedules are drawn, each event by itself or in bursts of one hart: uniform or bursts; uniform if it is left out]:DRAW:(uniform bursts)' \
            '--jobs[J threads share the runs, with the same output, 1 to 64; 1 if it is left out]:J:()' \
            '--base[the first block begins at byte A of memory, a multiple of 4, 0 to 4294967295; 0 if it is left out]:A:()' \
            '--stride[each block begins T bytes after the one before it, a multiple of 4 and at least 16 + 4 RING, as it is if it is left out, 0 to 4294967295]:T:()' \
            '1:SENDER:_files' \
            '2:RECEIVER:_files' \
            '3:RING:()'
        ;;
    callers)
        _arguments \
            '--buffer[a hart'\''s store buffer holds N stores: 1, 2, 4 or 16; 4 if it is left out]:N:(1 2 4 16)' \
            '--seed[the generator'\''s seed, 0 to 18446744073709551615]:X:()' \
            '--runs[how many schedules are drawn, 1 to 100000]:N:()' \
            '--length[how many events each schedule has, 0 to 1048576]:L:()' \
            '--skip[the first K runs of the seed are passed over, 0 to 18446744073709551615; 0 if it is left out]:K:()' \
            '--draw[how schedules are drawn, each event by itself or in bursts of one hart: uniform or bursts; uniform if it is left out]:DRAW:(uniform bursts)' \
            '--jobs[J threads share the runs, with the same output, 1 to 64; 1 if it is left out]:J:()' \
            '--slots[the queue has S slots, 0 to 4294967295]:S:()' \
            '--base[the queue'\''s block begins at byte B of memory, 0 to 4294967295; 0 if it is left out]:B:()' \
            '--sender[hart H sends, 0 to 63; 0 if it is left out]:H:()' \
            '--receiver[hart H receives, 0 to 63; 1 if it is left out]:H:()' \
            '--kind[which queue it is: lamport, cached or fastforward; lamport if it is left out]:KIND:(lamport cached fastforward)' \
            '1:FILE:_files'
        ;;
    queue)
        _arguments \
            '--buffer[a hart'\''s store buffer holds N stores: 1, 2, 4 or 16; 4 if it is left out]:N:(1 2 4 16)' \
            '--seed[the generator'\''s seed, 0 to 18446744073709551615; 1 if it is left out]:S:()' \
            '--runs[how many schedules are drawn, 1 to 100000; 1000 if it is left out]:N:()' \
            '--length[how many events each schedule has, 0 to 1048576; 1000 if it is left out]:L:()' \
            '--skip[the first K runs of the seed are passed over, 0 to 18446744073709551615; 0 if it is left out]:K:()' \
            '--draw[how schedules are drawn, each event by itself or in bursts of one hart: uniform or bursts; bursts if it is left out]:DRAW:(uniform bursts)' \
            '--jobs[J threads share the runs, with the same output, 1 to 64; 1 if it is left out]:J:()' \
            '--certificate[the certificate of the text'\''s queues]:C:_files' \
            '--written[where the protocol is kept: whether a queue'\''s sender writes each of BYTES of each record, after the record before in that slot was published. BYTES is all, or offsets and ranges as 0-3,8]:BYTES:()' \
            '--read[where the protocol is kept: whether a queue'\''s receiver reads each of BYTES of each record, before it hands the slot back. BYTES is all, or offsets and ranges as 0-3,8]:BYTES:()' \
            '--once[where the protocol is kept, and each load of a slot is of an owned one: whether a queue'\''s receiver reads each of BYTES of each record at most once, and of records in order. BYTES is all, or offsets and ranges as 0-3,8]:BYTES:()' \
            '--harts[where the protocol is kept: whether each hart is never stopped, which bytes of memory it writes, and which harts share]' \
            '--safety[where the protocol is kept: whether the queues go on isn'\''t asked]' \
            '1:FILE:_files'
        ;;
    steps)
        _arguments \
            '--buffer[a hart'\''s store buffer holds N stores: 1, 2, 4 or 16; 4 if it is left out]:N:(1 2 4 16)'
        ;;
    asm)
        _message 'no more words'
        ;;
    dis)
        _message 'no more words'
        ;;
    esac
}
_ztso "$@"
