# Of docs/rings.tsv and docs/commands.tsv: the words and options of the command ASKED, or all commands where it is none. The environment
# also has COLUMNS of the terminal, VERSION, MANUAL, the command that shows the manual page, and FRONT, what stands
# before the names of files.

# Prints a text in lines of the width; the later ones begin below the end of `front`. An option in brackets is one word.
function wrapped(front, text,    count, word, i, line, blanks) {
    blanks = sprintf("%" length(front) "s", "")
    count = split(text, word, " ")
    line = front word[1]
    for (i = 2; i <= count; i++) {
        if (word[i] ~ /^\[/ && word[i] !~ /\]$/)
            word[i + 1] = word[i] " " word[i + 1]
        else if (length(line) + 1 + length(word[i]) > width) {
            print line
            line = blanks word[i]
        } else
            line = line " " word[i]
    }
    print line
}

function first_word(text,    word) {
    split(text, word, " ")
    return word[1]
}

function all_commands(    i) {
    print "ztso " ENVIRON["VERSION"] " runs small RISC-V programs under the memory model Ztso."
    for (i = 1; i <= commands; i++) {
        sub(/ --.*/, " ..", form[i])
        sub(/[,:;(].*/, "", prints[i])
        wrapped(sprintf("  %-28s ", form[i]), prints[i])
    }
    print "`ztso COMMAND --help`: its words and options; more: " ENVIRON["MANUAL"]
    print "litmus tests: " ENVIRON["FRONT"] "litmus"
}

function one_command(number,    i, line, command) {
    command = ENVIRON["ASKED"]
    line = "ztso " form[number]
    for (i = 1; i <= options; i++)
        # an option that has to be given stands in the form already
        if (index(takers[i], " " command " ") && !index(form[number], first_word(option[i])))
            line = line " [" option[i] "]"
    wrapped("usage: ", line)
    wrapped("  reads       ", reads[number])
    wrapped("  prints      ", prints[number])
    for (i = 1; i <= options; i++)
        if (index(takers[i], " " command " "))
            wrapped(sprintf("  %-11s ", option[i]), does[i])
    sub(/#.*/, "", page[number])
    print "more: " ENVIRON["MANUAL"] "; " ENVIRON["FRONT"] page[number]
}

BEGIN {
    FS = "\t"
    columns = ENVIRON["COLUMNS"] + 0
    width = columns < 40 ? 79 : columns < 100 ? columns - 1 : 99
}

FNR == NR {
    if (!/^#/)
        rings = rings (rings == "" ? "" : ", ") $1
    next
}

$1 == "command" {
    commands++
    form[commands] = $2
    gsub(/{rings}/, rings, $3)
    reads[commands] = $3
    prints[commands] = $4
    page[commands] = $5
    if (first_word($2) == ENVIRON["ASKED"])
        known = commands
}

$1 == "option" {
    options++
    option[options] = $2
    takers[options] = " " $3 " "
    does[options] = $6 ($4 ~ / or / ? ": " $4 : $4 ~ / to / ? ", " $4 : "") ($5 != "" ? "; " $5 " if it is left out" : "")
}

END {
    if (known)
        one_command(known)
    else
        all_commands()
}
