# Made by tools/manual.py from what --help says.

_mlock() {
    local word=${COMP_WORDS[COMP_CWORD]} before=${COMP_WORDS[COMP_CWORD - 1]} words=
    # (what is around a `=` are words of their own)
    if [ "$word" = "=" ]; then word=; fi
    if [ "$before" = "=" ]; then before=${COMP_WORDS[COMP_CWORD - 2]}; fi
    COMPREPLY=()
    if [ "$COMP_CWORD" -eq 1 ]; then
        mapfile -t COMPREPLY < <(compgen -W "check make verify replay convert survey suggest stubs explain help --help --version" -- "$word")
        return
    fi
    case ${COMP_WORDS[1]}:$before in
        help:*) words="check make verify replay convert survey suggest stubs explain" ;;
        check:--dialect) words="standard extended" ;;
        check:--workers) words="" ;;
        check:--output) words="text json sarif lines" ;;
        make:--dialect) words="standard extended" ;;
        make:--format) words="1 2" ;;
        verify:--dialect) words="standard extended" ;;
        verify:--workers) words="" ;;
        verify:--output) words="text json sarif lines" ;;
        replay:--dialect) words="standard extended" ;;
        convert:--format) words="1 2" ;;
        survey:--dialect) words="standard extended" ;;
        survey:--output) words="text json" ;;
        suggest:--dialect) words="standard extended" ;;
        stubs:--dialect) words="standard extended" ;;
        stubs:--for) words="" ;;
        *)
            if [[ $word != -* ]]; then
                compopt -o filenames
                mapfile -t COMPREPLY < <(compgen -f -- "$word")
                return
            fi ;;
    esac
    if [[ $word == -* ]]; then
        case ${COMP_WORDS[1]} in
            check) words="--files-from --dialect --workers --output --strict --explain --quiet --exit-zero --baseline --write-baseline --help" ;;
            make) words="--files-from --dialect --format --help" ;;
            verify) words="--files-from --dialect --workers --output --strict --explain --quiet --exit-zero --baseline --write-baseline --help" ;;
            replay) words="--files-from --dialect --explain --interactive --help" ;;
            convert) words="--format --help" ;;
            survey) words="--files-from --dialect --output --help" ;;
            suggest) words="--files-from --dialect --beside --stubs --help" ;;
            stubs) words="--files-from --dialect --for --help" ;;
            explain) words="--help" ;;
        esac
    fi
    mapfile -t COMPREPLY < <(compgen -W "$words" -- "$word")
}
complete -F _mlock mlock
