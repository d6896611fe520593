# `usual WORD..`: whether the words have the form of a command, and its files the endings of what is to stand there. Then the program takes the launcher's
# place, so that signals reach it. Else the launcher waits, to tell what was meant where the program refuses them. It also waits before a terminal where
# compiled files may lack one, since a person reads what it tells then.
usual() {
    case "${1-} $#" in
        "--version 1") return 0 ;;
        "check 2" | "show 2" | "waits 2" | "asm 3" | "upgrade 3" | "resume 3" | "sample 2") form=file first=2 ;;
        "once "* | "compile "*) form=script first=2 ;;
        "run "*) form=script first=3 ;;
        "exec "*) form=pex first=3 ;;
        "journal "*) form=pex first=4 ;;
        "hold "*) form=pex first=5 ;;
        "lift "*) form=lifted first=2 ;;
        *) return 1 ;;
    esac
    [ $# -ge $first ] && [ $# -lt $((first + 256)) ] || return 1
    case "$1 $2" in
        "sample "[1-9] | "sample "[1-9][0-9] | "sample 1"[0-9][0-9] | "sample 200") return 0 ;;
        "hold 0" | "resume 0" | "hold 1000000" | "resume 1000000") ;;
        "sample "* | "hold "*[!0-9]* | "resume "*[!0-9]* | "hold 0"* | "resume 0"* | "hold " | "resume " | "hold "???????* | "resume "???????*) return 1 ;;
    esac
    case $form in
        pex | lifted) [ ! -t 2 ] || return 1 ;;
    esac
    place=0
    for word do
        place=$((place + 1))
        case $place:$word in
            1:*) ;;
            *: | *:.[pP][sS][cC] | *:.[pP][eE][xX]) return 1 ;;
            *.[pP][sS][cC]) [ $form = script ] && [ $place -ge $first ] || return 1 ;;
            *.[pP][eE][xX]) [ $form != script ] && { [ $place -ge $first ] || [ $place -gt 2 ]; } || return 1 ;;
            *) [ $place -lt $first ] || case $form in script | lifted) return 1 ;; esac ;;
        esac
    done
}
