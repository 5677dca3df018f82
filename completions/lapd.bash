# Completion of lapd's commands, options and their words for bash.
_lapd() {
    local word=${COMP_WORDS[COMP_CWORD]} before=${COMP_WORDS[COMP_CWORD - 1]} offered
    local commands="answer bus pair loop net user decode conform"
    COMPREPLY=()
    # bash cuts --side=net at the equals sign
    [[ $word == "=" ]] && word=
    [[ $before == "=" ]] && before=${COMP_WORDS[COMP_CWORD - 2]}
    case $before in
        --side | --sender | --of) offered="net user" ;;
        --sapi) [[ ${COMP_WORDS[1]} == decode ]] && return; offered="0 16" ;;
        --recovery | --recovery-user | --recovery-net) offered="enquiry last" ;;
        --clock) offered="script real" ;;
        --kinds) offered="i s u" ;;
        --color) offered="auto always never" ;;
        --time) [[ ${COMP_WORDS[1]} == decode ]] && offered="none absolute relative delta day utc local" ;;
        --ladder)
            if [[ ${COMP_WORDS[1]} == net || ${COMP_WORDS[1]} == user ]]; then
                mapfile -t COMPREPLY < <(compgen -f -- "$word")
                return
            fi
            ;;
        --pcap | --svg | --html | --write | --stack | --suite | --junit) mapfile -t COMPREPLY < <(compgen -f -- "$word"); return ;;
        --tei | --k | --n200 | --room | --terminals | --idle-limit | --audit | --t20? | --seed | --count | --call | --span) return ;;
        --report) mapfile -t COMPREPLY < <(compgen -d -- "$word"); return ;;
        --listen | --connect | --gsmtap | --upper | --cases) return ;;
    esac
    if [[ -z $offered && ${COMP_WORDS[1]} == decode && $word != -* ]]; then
        # a folder ends with a slash
        compopt -o filenames 2>/dev/null
        mapfile -t COMPREPLY < <(compgen -f -- "$word")
        return
    fi
    if [[ -z $offered ]]; then
        if ((COMP_CWORD == 1)); then
            offered="$commands help --help --version"
        else
            offered="--strict --help"
            case ${COMP_WORDS[1]} in
                conform)
                    offered="--connect --listen --of --stack --upper --cases --suite --known --draw --seed --anew --report --junit"
                    offered+=" --json --print --help"
                    ;;
                answer) offered+=" --side --sapi --tei --k --n200 --room --recovery" ;;
                bus) offered+=" --terminals --links --ladder" ;;
                pair) offered+=" --k --n200 --room --recovery-user --recovery-net --ladder" ;;
                loop) offered+=" --k --n200 --room --recovery-user --recovery-net" ;;
                net) offered+=" --listen --clear --terminals --audit --no-audit --no-ties" ;;&
                user) offered+=" --connect" ;;&
                net | user)
                    offered+=" --pri --tei --sapi16 --k --n200 --room --recovery --t200 --t201 --t202 --t203 --seed"
                    offered+=" --json --clock --time --quiet --serve --keep --idle-limit --pcap --ladder --gsmtap"
                    ;;
                decode)
                    offered+=" --loose --sender --span --names --no-octets --json --keep-going --pcap --follow --ladder --svg --k"
                    offered+=" --html --write --calls --summary --violations"
                    offered+=" --time --count --sapi --tei --call --kinds --no-polls --any-sapi --color"
                    ;;
                help) offered=$commands ;;
                *) return ;;
            esac
        fi
    fi
    mapfile -t COMPREPLY < <(compgen -W "$offered" -- "$word")
}
complete -F _lapd lapd ./lapd
