# usage.sh, read by shell scripts in sh and bash: what a script says of itself, and whether its words can be what it takes.

# usage: prints the first comment of the script
usage() {
    sed -n '2,/^[^#]/s/^# \{0,1\}//p' "$0"
}

# refuse: prints it as an error, and ends
refuse() {
    usage >&2
    exit 2
}

# take_number WORD: refuses a word that is no whole number
take_number() {
    case $1 in
    '' | *[!0-9]*) refuse ;;
    esac
}

# take_program WORD: refuses a word that names no program
take_program() {
    if [ ! -f "$1" ] || [ ! -x "$1" ]; then
        refuse
    fi
}

# take_words LEAST MOST WORD..: where help is asked for, tells it and ends. Refuses words that are fewer or more, empty, or a flag.
take_words() {
    least=$1
    most=$2
    shift 2
    for word do
        case $word in
        -h | --help)
            usage
            exit 0
            ;;
        '' | -*) refuse ;;
        esac
    done
    if [ $# -lt "$least" ] || [ $# -gt "$most" ]; then
        refuse
    fi
}
