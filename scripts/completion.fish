# Completes the words of ztso in fish. Made by scripts/make-commands.
complete -c ztso -f
complete -c ztso -n __fish_use_subcommand -a run -d 'the last state and the verdict'
complete -c ztso -n __fish_use_subcommand -a replay -d 'what happened'
complete -c ztso -n __fish_use_subcommand -a move -d 'the schedule\'s text of version 2'
complete -c ztso -n __fish_use_subcommand -a shrink -d 'a schedule with the same outcome'
complete -c ztso -n __fish_use_subcommand -a chart -d 'a picture of the run'
complete -c ztso -n __fish_use_subcommand -a show -d 'what its test is'
complete -c ztso -n __fish_use_subcommand -a debug -d 'the answer to each command'
complete -c ztso -n __fish_use_subcommand -a check -d 'which records are accepted'
complete -c ztso -n __fish_use_subcommand -a find -d 'a shortest schedule that shows what is asked for'
complete -c ztso -n __fish_use_subcommand -a try -d 'the outcomes of N drawn schedules of L events'
complete -c ztso -n __fish_use_subcommand -a threads -d 'the schedule that threads of the system made'
complete -c ztso -n __fish_use_subcommand -a channel -d 'what the receiver reports'
complete -c ztso -n __fish_use_subcommand -a ring -d 'whether N drawn runs of L events report clean'
complete -c ztso -n __fish_use_subcommand -a callers -d 'whether N drawn runs keep what callers owe'
complete -c ztso -n __fish_use_subcommand -a queue -d 'whether every run keeps each queue\'s protocol'
complete -c ztso -n __fish_use_subcommand -a steps -d 'the last state'
complete -c ztso -n __fish_use_subcommand -a asm -d 'words in hex'
complete -c ztso -n __fish_use_subcommand -a dis -d 'instructions'
complete -c ztso -n '__fish_seen_subcommand_from run replay move shrink chart show debug check find try threads ring callers queue' -F
complete -c ztso -n '__fish_seen_subcommand_from channel; and not __fish_seen_subcommand_from lamport fastforward cached own' -a 'lamport fastforward cached own'
complete -c ztso -n '__fish_seen_subcommand_from channel; and __fish_seen_subcommand_from lamport fastforward cached own' -F
complete -c ztso -n '__fish_seen_subcommand_from run replay move shrink chart show check find debug try threads channel ring callers queue steps' -l buffer -x -a '1 2 4 16' -d 'a hart\'s store buffer holds N stores: 1, 2, 4 or 16; 4 if it is left out'
complete -c ztso -n '__fish_seen_subcommand_from chart' -l svg -d 'the picture is written as SVG, for a browser'
complete -c ztso -n '__fish_seen_subcommand_from chart' -l memory -d 'rows of instructions that only compute or jump are left out'
complete -c ztso -n '__fish_seen_subcommand_from show' -l steps -d 'the test\'s opening as a steps text'
complete -c ztso -n '__fish_seen_subcommand_from find' -l states -x -d 'at most N distinct states are seen, 1 to 16777216; 1000000 if it is left out'
complete -c ztso -n '__fish_seen_subcommand_from try ring' -l seed -x -d 'the generator\'s seed, 0 to 18446744073709551615'
complete -c ztso -n '__fish_seen_subcommand_from callers' -l seed -x -d 'the generator\'s seed, 0 to 18446744073709551615'
complete -c ztso -n '__fish_seen_subcommand_from queue' -l seed -x -d 'the generator\'s seed, 0 to 18446744073709551615; 1 if it is left out'
complete -c ztso -n '__fish_seen_subcommand_from try ring callers' -l runs -x -d 'how many schedules are drawn, 1 to 100000'
complete -c ztso -n '__fish_seen_subcommand_from queue' -l runs -x -d 'how many schedules are drawn, 1 to 100000; 1000 if it is left out'
complete -c ztso -n '__fish_seen_subcommand_from try ring callers' -l length -x -d 'how many events each schedule has, 0 to 1048576'
complete -c ztso -n '__fish_seen_subcommand_from queue' -l length -x -d 'how many events each schedule has, 0 to 1048576; 1000 if it is left out'
complete -c ztso -n '__fish_seen_subcommand_from try ring callers queue' -l skip -x -d 'the first K runs of the seed are passed over, 0 to 18446744073709551615; 0 if it is left out'
complete -c ztso -n '__fish_seen_subcommand_from try ring callers' -l draw -x -a 'uniform bursts' -d 'how schedules are drawn, each event by itself or in bursts of one hart: uniform or bursts; uniform if it is left out'
complete -c ztso -n '__fish_seen_subcommand_from try' -l unfinished -d 'the last line ends with the schedule of the first run that didn\'t finish'
complete -c ztso -n '__fish_seen_subcommand_from queue' -l draw -x -a 'uniform bursts' -d 'how schedules are drawn, each event by itself or in bursts of one hart: uniform or bursts; bursts if it is left out'
complete -c ztso -n '__fish_seen_subcommand_from try ring callers queue' -l jobs -x -d 'J threads share the runs, with the same output, 1 to 64; 1 if it is left out'
complete -c ztso -n '__fish_seen_subcommand_from threads' -l turns -x -d 'how many turns a thread takes at most, 0 to 10000000; 100000 if it is left out'
complete -c ztso -n '__fish_seen_subcommand_from channel ring' -l base -x -d 'the first block begins at byte A of memory, a multiple of 4, 0 to 4294967295; 0 if it is left out'
complete -c ztso -n '__fish_seen_subcommand_from channel ring' -l stride -x -d 'each block begins T bytes after the one before it, a multiple of 4 and at least 16 + 4 RING, as it is if it is left out, 0 to 4294967295'
complete -c ztso -n '__fish_seen_subcommand_from channel' -l finish -d 'after the schedule a plan runs, until each list is taken and each sender closed; not with own'
complete -c ztso -n '__fish_seen_subcommand_from channel' -l sender -r -F -d 'the program of each sender, as assembly: with own, and only there'
complete -c ztso -n '__fish_seen_subcommand_from channel' -l receiver -r -F -d 'the program of the receiver, as assembly: with own, and only there'
complete -c ztso -n '__fish_seen_subcommand_from callers' -l slots -x -d 'the queue has S slots, 0 to 4294967295'
complete -c ztso -n '__fish_seen_subcommand_from callers' -l base -x -d 'the queue\'s block begins at byte B of memory, 0 to 4294967295; 0 if it is left out'
complete -c ztso -n '__fish_seen_subcommand_from callers' -l sender -x -d 'hart H sends, 0 to 63; 0 if it is left out'
complete -c ztso -n '__fish_seen_subcommand_from callers' -l receiver -x -d 'hart H receives, 0 to 63; 1 if it is left out'
complete -c ztso -n '__fish_seen_subcommand_from callers' -l kind -x -a 'lamport cached fastforward' -d 'which queue it is: lamport, cached or fastforward; lamport if it is left out'
complete -c ztso -n '__fish_seen_subcommand_from queue' -l certificate -r -F -d 'the certificate of the text\'s queues'
complete -c ztso -n '__fish_seen_subcommand_from queue' -l written -x -d 'where the protocol is kept: whether a queue\'s sender writes each of BYTES of each record, after the record before in that slot was published. BYTES is all, or offsets and ranges as 0-3,8'
complete -c ztso -n '__fish_seen_subcommand_from queue' -l read -x -d 'where the protocol is kept: whether a queue\'s receiver reads each of BYTES of each record, before it hands the slot back. BYTES is all, or offsets and ranges as 0-3,8'
complete -c ztso -n '__fish_seen_subcommand_from queue' -l once -x -d 'where the protocol is kept, and each load of a slot is of an owned one: whether a queue\'s receiver reads each of BYTES of each record at most once, and of records in order. BYTES is all, or offsets and ranges as 0-3,8'
complete -c ztso -n '__fish_seen_subcommand_from queue' -l harts -d 'where the protocol is kept: whether each hart is never stopped, which bytes of memory it writes, and which harts share'
complete -c ztso -n '__fish_seen_subcommand_from queue' -l safety -d 'where the protocol is kept: whether the queues go on isn\'t asked'

# Completes the words of a tool by its own help: the values of the option before, or options.
function __ztso_tool_values
    set -l words (commandline -opc)
    string match -q -- '--*' $words[-1]; or return 1
    set -l listed (string replace -rf -- ".*[\\[ ]$words[-1] ([a-z0-9]+(?:[|][a-z0-9]+)+).*" '$1' ($words[1] --help 2> /dev/null))
    set -q listed[1]; and string split -- '|' $listed[1]
end
function __ztso_tool_options
    string match -q -- '-*' (commandline -ct); or return
    set -l words (commandline -opc)
    string match -rag -- '(--[a-z][a-z-]*)' ($words[1] --help 2> /dev/null)
end
for tool in allowed certify channel-text chart-lines compare-mappings core-log-to-record for-ci from-c from-herd from-object make-rust-core merge-tries page queue to-litmus-log tries-over-machines
    for command in '-c ztso-' '-p */tools/'
        set -l command (string split ' ' -- $command$tool)
        complete $command -n __ztso_tool_values -f -a '(__ztso_tool_values)'
        complete $command -n 'not __ztso_tool_values' -a '(__ztso_tool_options)'
    end
end
