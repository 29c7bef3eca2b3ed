# Of the words ARGV[3] and on, by docs/rings.tsv and docs/commands.tsv, the files before them: with WHAT=wrong what is wrong with the first of them
# that doesn't belong to a job, with WHAT=files the files that they name, one a line, in the order in which they are read;
# with WHAT=plain the word ARGV[3] as a terminal may show it.
# It prints nothing where it can't tell.

# Whether a decimal number is less than another; both are without leading zeros.
function is_less(one, other) {
    return length(one) != length(other) ? length(one) < length(other) : one "" < other ""
}

function is_number(text, least, most) {
    if (text !~ /^[+]?[0-9]+$/)
        return 0
    sub(/^[+]?0*/, "", text)
    if (text == "")
        text = "0"
    return !is_less(text, least) && !is_less(most, text)
}

# What is wrong with the value of an option, or nothing: its values are a range of numbers, or a list of words, or any file.
function wrong_value(name, value,    bounds, one, count, i, listed) {
    if (split(values_of[name], bounds, " to ") == 2)
        return is_number(value, bounds[1], bounds[2]) ? "" : "`" value "` is no number from " bounds[1] " to " bounds[2] ", for " name
    count = split(values_of[name], one, /, | or /)
    for (i = 1; i <= count; i++)
        if (count == 1 || value "" == one[i] "")
            return ""
    listed = values_of[name]
    sub(/ or /, " and ", listed)
    return "`" value "` is none of " listed ", for " name
}

# What is wrong with a word in its place.
function wrong_place(place, value) {
    if (place == "KIND" && !(value in kinds))
        return "`" value "` is no KIND"
    if (place == "RING" && !is_number(value, "0", "4294967295"))
        return "`" value "` is no number from 0 to 4294967295, for RING"
    return ""
}

# A text as a terminal may show it: `?` for each control character, those of two bytes too. awk is called with LC_ALL=C.
function plain(text) {
    gsub(/[\001-\037\177]/, "?", text)
    gsub(/\302[\200-\237]/, "?", text)
    return text
}

# Keeps the first thing that is wrong.
function say(text) {
    if (text != "" && wrong == "")
        wrong = text
}

# An option with its value, which may be the next word; returns how many words it takes.
function take_option(at,    name, value, has_value) {
    name = ARGV[at]
    has_value = index(name, "=")
    if (has_value) {
        value = substr(name, has_value + 1)
        name = substr(name, 1, has_value - 1)
    }
    if (!(name in value_of)) {
        say("`" name "` is no option of " command)
        return 1
    }
    if (name in given)
        say(name " is given twice")
    given[name] = value
    if (value_of[name] == "" || has_value) {
        say(value_of[name] != "" ? wrong_value(name, value) : has_value ? name " takes no value" : "")
        return 1
    }
    if (at + 1 > last) {
        say(name " has no value")
        return 1
    }
    given[name] = ARGV[at + 1]
    say(wrong_value(name, ARGV[at + 1]))
    return 2
}

# What options go with a KIND, by what they do: own needs those that are only there.
function take_kind(is_own,    at, name) {
    for (at = 1; at <= options; at++) {
        name = option[at]
        if (does[name] ~ /with own, and only there/ && is_own != (name in given))
            say(is_own ? name " is missing, which own needs" : name " goes with own alone")
        if (does[name] ~ /not with own/ && is_own && name in given)
            say(name " doesn't go with own")
    }
}

function take_words(    at, placed) {
    for (at = 4; at <= last;)
        if (ARGV[at] ~ /^--./)
            at += take_option(at)
        else {
            placed++
            if (placed > places)
                say("`" ARGV[at] "` is one word too many")
            else {
                say(wrong_place(place[placed], ARGV[at]))
                word[place[placed]] = ARGV[at]
            }
            at++
        }
    for (at = placed + 1; at <= places; at++)
        say(place[at] " is missing")
    for (at = 1; at <= needs; at++)
        if (!(need[at] in given))
            say(need[at] " is missing")
    if ("KIND" in word)
        take_kind(word["KIND"] == "own")
}

function print_files() {
    if (command == "channel" && word["KIND"] == "own") {
        print given["--sender"]
        print given["--receiver"]
    }
    if ("SENDER" in word) {
        print word["SENDER"]
        print word["RECEIVER"]
    }
    if ("FILE" in word)
        print word["FILE"]
    if ("SCHEDULE" in word)
        print word["SCHEDULE"]
    if ("--certificate" in given)
        print given["--certificate"]
}

BEGIN {
    FS = "\t"
    last = ARGC - 1
    ARGC = 3
    command = ARGV[3]
    if (ENVIRON["WHAT"] == "plain") {
        print plain(command)
        exit
    }
    kinds["own"]
}

FNR == NR {
    if (!/^#/)
        kinds[$1]
    next
}

$1 == "command" {
    count = split($2, part, " ")
    if (part[1] == command && count) {
        is_known = 1
        for (i = 2; i <= count; i++)
            if (part[i] ~ /^--/)
                need[++needs] = part[i++]
            else
                place[++places] = part[i]
    }
}

# the options of the command, of which another command may have one by the same name for something else
$1 == "option" && index(" " $3 " ", " " command " ") {
    split($2, part, " ")
    value_of[part[1]] = part[2]
    values_of[part[1]] = $4
    option[++options] = part[1]
    does[part[1]] = $6
}

END {
    if (last < 3 || ENVIRON["WHAT"] == "plain")
        exit
    if (!is_known) {
        if (ENVIRON["WHAT"] == "wrong")
            print plain("`" command "` is no command")
        exit
    }
    take_words()
    if (ENVIRON["WHAT"] == "files")
        print_files()
    else if (wrong != "")
        print plain(wrong)
}
