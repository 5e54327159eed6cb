# Completion of olt for bash: source this file, or copy it to /usr/share/bash-completion/completions/olt.
_olt() {
    local current=${COMP_WORDS[COMP_CWORD]} before=${COMP_WORDS[COMP_CWORD - 1]} command=${COMP_WORDS[1]}
    # The shell makes words of their own of an option's equals sign and its value.
    [ "$current" = '=' ] && current=
    [ "$before" = '=' ] && before=${COMP_WORDS[COMP_CWORD - 2]}
    case $before in
        --config | --record | --operate | --control | --svg) mapfile -t COMPREPLY < <(compgen -f -- "$current"); return ;;
        --listen | --connect | --control-tcp | --metrics | --operators | --maps | --wait | --pace | --flush | --port | --alloc | --frame | --from | --to) return ;;
        --format) mapfile -t COMPREPLY < <(compgen -W 'text json' -- "$current"); return ;;
        --units) mapfile -t COMPREPLY < <(compgen -W 'simulated external' -- "$current"); return ;;
    esac
    local words
    if [ "$COMP_CWORD" -eq 1 ]; then
        words='plan run stop operate check audit info rates why dump picture loads migrate units --help --version'
    else
        case $command in
            help) words='plan run stop operate check audit info rates why dump picture loads migrate units' ;;
            plan) words='--config --strict --verbose --record --no-clobber --forget --flush --help' ;;
            run) words='--config --listen --maps --units --once --grow --wait --pace --record --segment --keep --resume --resume-truncated --warm --apply --no-clobber --strict-record --flush --operate --control --control-tcp --operators --settle --progress --summary --metrics --help' ;;
            stop) words='--control --control-tcp --help' ;;
            operate) words='--control --control-tcp --help' ;;
            units) words='--config --connect --port --wait --help' ;;
            check | audit | info | rates | why | dump | picture | loads | migrate)
                case $current in
                    -*)
                        case $command in
                            audit) words='--joined --complete --format --help' ;;
                            info) words='--joined --format --help' ;;
                            rates) words='--joined --port --alloc --from --to --format --help' ;;
                            why) words='--joined --port --frame --alloc --format --help' ;;
                            dump) words='--joined --port --help' ;;
                            loads) words='--joined --alloc --port --from --to --svg --no-clobber --help' ;;
                            picture) words='--joined --port --frame --svg --no-clobber --help' ;;
                            migrate) words='--no-clobber --help' ;;
                            *) words='--help' ;;
                        esac
                        ;;
                    *) mapfile -t COMPREPLY < <(compgen -f -- "$current"); return ;;
                esac
                ;;
        esac
    fi
    mapfile -t COMPREPLY < <(compgen -W "$words" -- "$current")
}
complete -o filenames -F _olt olt
