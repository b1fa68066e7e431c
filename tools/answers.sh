# What ./apt and an installed aptmill share: the words that they take, and what they say behind the program's answer.
# Set before: top, the folder of tools/ and docs/; program, the built program; called, the name in the help. hints says
# what stands behind the words of all commands.

say() { echo "${called##*/}: $*" >&2; }

# The words of all commands.
commands() {
    sed "s|APT|$called|g" <<'END_OF_COMMANDS'
    APT compile PART MACHINE CL TAPE
        compiles the part program PART for the machine of the table MACHINE,
        and writes its CL file and its tape; CL and TAPE differ from each
        other and from PART and MACHINE
    APT certify PART MACHINE CL TAPE
        answers whether the CL file and the tape are right for the part
    APT guard PART MACHINE CL TAPE OUTLINE
        does what certify does, and tells whether a contour brings the cutter
        into a part of the outline
    APT decode MACHINE TAPE
        prints what a control does with the tape, an act a line
    APT list CL
        prints the positions of the CL file, one a line
    APT demo N
        compiles and certifies a part of N circles, which it makes itself; N is
        1 to 800
    APT --help, APT COMMAND --help
        prints the words of all commands, or those of one
    APT --version
        prints the kit, and the commit of the sources
END_OF_COMMANDS
}

# The words of one command, nothing where there is none of that name.
command_of() { commands | awk -v name="$1" '/^    [^ ]/ { shown = $2 == name } shown'; }

help() {
    commands
    hints
}

# asked WORDS: prints the help that is asked for, if any
asked() {
    case $#/${1-}/${2-} in
    1/--help/ | 1/-h/) help ;;
    2/*/--help | 2/*/-h)
        [ -n "$(command_of "$1")" ] || return 1
        command_of "$1"
        ;;
    *) return 1 ;;
    esac
}

# The source line and the manual's words for the program's line, which the same run tells again.
# It writes nothing: under the names that compile is given here no file can lie.
explain() {
    part=$2 machine=$3 cl=${4-} tape=${5-} outline=${6-}
    case $1 in
    compile) set -- compile "$2" "$3" /dev/null/CL /dev/null/TAPE && cl='' tape='' ;;
    decode) part='' machine=$2 cl='' tape=$3 ;;
    list) part='' machine='' cl=$2 ;;
    demo) part='' machine='' ;;
    esac
    # what is no file may be read but once
    for name in "$@"; do
        case $name in
        "$1" | /dev/null/*) ;;
        *) [ -f "$name" ] || return 0 ;;
        esac
    done
    APT=$program "$top/tools/explain" "$("$program" "$@" 2>/dev/null)" "$part" "$machine" "$cl" "$tape" "$outline" >&2
}

# Which file could not be read or written, and the system's reason.
reasons() { "$top/tools/explain" --status "$@" 3>&1 >&2; }

# The files under the names of a compile that wrote none.
as_before() {
    case $([ ! -f "${4-}" ] || echo CL)$([ ! -f "${5-}" ] || echo TAPE) in
    CLTAPE) say "$4 and $5 are as before" ;;
    CL) say "$4 is as before" ;;
    TAPE) say "$5 is as before" ;;
    esac
}

# run WORDS: the program's answer, and behind a refusal what is to be said of it; the status is the program's
run() {
    "$program" "$@"
    status=$?
    # what may stand where writing was broken off
    unsure=
    [ "${1-}" != compile ] || unsure=": CL and TAPE are as before, but for what is written in place (README)"
    case $status in
    1)
        if [ -n "$(command_of "${1-}")" ]; then
            say "the words are not those of $1:"
            command_of "$1" >&2
        else
            say "the words fit no command; these do:"
            help >&2
        fi
        ;;
    3)
        say "a file could not be read (status 3); nothing was written"
        reasons 3 "$@"
        ;;
    5 | 6 | 7 | 8 | 9 | 10 | 13 | 14) explain "$@" ;;
    11)
        say "a file or the answer's line could not be written (status 11)$unsure"
        reasons 11 "$@"
        ;;
    12) say "memory ran out (status 12)$unsure" ;;
    15) say "a word of the command line is no text, or has a control byte (status 15)" ;;
    esac
    case ${1-}/$status in
    compile/[2-7]) as_before "$@" ;;
    esac
    return $status
}
