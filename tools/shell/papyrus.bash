# Completion of papyrus for bash, made by make.py of commands.table: change that.

_papyrus() {
    local word=${COMP_WORDS[COMP_CWORD]} pattern=
    COMPREPLY=()
    if [ "$COMP_CWORD" -eq 1 ]; then
        COMPREPLY=($(compgen -W "once run compile exec journal waits hold resume check show asm lift sample upgrade --help --version help explain view picture explore" -- "$word"))
        return
    fi
    case ${COMP_WORDS[1]} in
    once) pattern='*.psc' ;;
    run)
        case $COMP_CWORD in
        2) pattern='*.json' ;;
        *) pattern='*.psc' ;;
        esac
        ;;
    compile) pattern='*.psc' ;;
    exec)
        case $COMP_CWORD in
        2) pattern='*.json' ;;
        *) pattern='*.pex' ;;
        esac
        ;;
    journal)
        case $COMP_CWORD in
        2) pattern='*.json' ;;
        3) pattern='*.journal' ;;
        *) pattern='*.pex' ;;
        esac
        ;;
    waits)
        case $COMP_CWORD in
        2) pattern='*.journal' ;;
        esac
        ;;
    hold)
        case $COMP_CWORD in
        2) pattern='' ;;
        3) pattern='*.json' ;;
        4) pattern='*.held' ;;
        *) pattern='*.pex' ;;
        esac
        ;;
    resume)
        case $COMP_CWORD in
        2) pattern='' ;;
        3) pattern='*.held' ;;
        esac
        ;;
    check)
        case $COMP_CWORD in
        2) pattern='*.pex' ;;
        esac
        ;;
    show)
        case $COMP_CWORD in
        2) pattern='*.pex' ;;
        esac
        ;;
    asm)
        case $COMP_CWORD in
        2) pattern='*.txt' ;;
        3) pattern='*.pex' ;;
        esac
        ;;
    lift) pattern='*.pex' ;;
    upgrade)
        case $COMP_CWORD in
        2) pattern='*.json' ;;
        3) pattern='*.json' ;;
        esac
        ;;
    help)
        [ "$COMP_CWORD" -gt 2 ] || COMPREPLY=($(compgen -W "once run compile exec journal waits hold resume check show asm lift sample upgrade help explain view picture explore" -- "$word"))
        ;;
    explain)
        [ "$COMP_CWORD" -gt 2 ] || COMPREPLY=($(compgen -W "L1 L2 L3 L4 L5 L6 L7 L8 L9 S1 S2 S3 N1 N2 N3 N4 N5 N6 N7 N8 N9 N10 N11 N12 K1 K2 K3 K4 K5 K6 K7 K8 K9 K10 K11 K12 K13 K14 K15 K16 P1 P2 P3 P4 P5 P6 P7 P8 P9 P10 P11 P12 G1 G2 G3 G4 V1 V2 V3 V4 V5 V6 V7 V8 V9 V10 V11 V12 V13 V14 C1 C2 C3 C4 C5 C6 C7 C8 C9 C10 H1 H2 H3 H4 H5 H6 H7 J1 J2 U1" -- "${word^^}"))
        ;;
    view)
        case $COMP_CWORD in
        2) pattern='*' ;;
        *) pattern='*' ;;
        esac
        ;;
    picture)
        case $COMP_CWORD in
        2) pattern='*.json' ;;
        *) pattern='*.psc' ;;
        esac
        ;;
    explore)
        case $word in --*) COMPREPLY=($(compgen -W "--of --expect --until --states --jobs --any-start --random --seed --to --help" -- "$word")); return ;; esac
        ;;&
    explore)
        case $COMP_CWORD in
        2) pattern='*.json' ;;
        *) pattern='*.psc' ;;
        esac
        ;;
    esac
    [ -n "$pattern" ] || return
    local IFS=$'\n'
    COMPREPLY=($(compgen -f -X "!$pattern" -- "$word") $(compgen -d -- "$word"))
    compopt -o filenames 2>/dev/null
}

complete -F _papyrus papyrus ./papyrus
