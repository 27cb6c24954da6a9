# What bash offers for desk_ask: "desk_ask --bash" prints it from the table of commands.
_desk_ask() {
    local roles='requestor cc admincc'
    local kinds='DependsOn MemberOf RefersTo DependedOnBy HasMember ReferredToBy'
    local word=${COMP_WORDS[COMP_CWORD]} at=1 place=0 options='' offers=() i
    COMPREPLY=()
    while [[ ${COMP_WORDS[at]} == --server || ${COMP_WORDS[at]} == --token-file ]]; do
        if ((COMP_CWORD == at + 1)); then
            [[ ${COMP_WORDS[at]} == --server ]] || mapfile -t COMPREPLY < <(compgen -f -- "$word")
            return
        fi
        ((COMP_CWORD > at)) || break
        at=$((at + 2))
        # bash takes the colon of a server for a word
        [[ ${COMP_WORDS[at]} != : ]] || at=$((at + 2))
    done
    if ((COMP_CWORD <= at)); then
        mapfile -t COMPREPLY < <(compgen -W '--server --token-file queue create status resolve level take steal untake give watch unwatch correspond comment link queues show ls history overdue workload' -- "$word")
        return
    fi
    case ${COMP_WORDS[at]} in
        queue) offers=( '' '' '' ) options='' ;;
        create) offers=( '' '' '' ) options='--status' ;;
        status) offers=( '' '' ) options='' ;;
        resolve) offers=( '' ) options='' ;;
        level) offers=( '' '' ) options='' ;;
        take) offers=( '' ) options='' ;;
        steal) offers=( '' ) options='' ;;
        untake) offers=( '' ) options='' ;;
        give) offers=( '' '' ) options='' ;;
        watch) offers=( '' "$roles" '' ) options='' ;;
        unwatch) offers=( '' "$roles" '' ) options='' ;;
        correspond) offers=( '' '' ) options='' ;;
        comment) offers=( '' '' ) options='' ;;
        link) offers=( '' "$kinds" '' ) options='-d' ;;
        queues) offers=( ) options='' ;;
        show) offers=( '' ) options='' ;;
        ls) offers=( '' ) options='' ;;
        history) offers=( '' ) options='' ;;
        overdue) offers=( ) options='' ;;
        workload) offers=( ) options='' ;;
    esac
    for ((i = at + 1; i < COMP_CWORD; i++)); do
        case ${COMP_WORDS[i]} in
            --) ;;
            --*) i=$((i + 1)) ;;
            -*) ;;
            *) place=$((place + 1)) ;;
        esac
    done
    [[ $word == -* ]] || options=${offers[place]}
    mapfile -t COMPREPLY < <(compgen -W "$options" -- "$word")
}
complete -F _desk_ask desk_ask
