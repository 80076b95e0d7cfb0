# What bash offers behind the words of css: its commands, and the options of each.

_css() {
    local word=${COMP_WORDS[COMP_CWORD]} offered
    case ${COMP_WORDS[1]} in
    agree)
        offered="--pairs"
        ;;
    companion)
        offered="--cii --selector --stem --reports --turns --seconds --report-every --ask-every --local-error
            --local-precision --earliest --latest --record"
        ;;
    watch)
        offered="--cii --selector --stem --seconds --report-every --ask-every --local-error --local-precision"
        ;;
    tv)
        offered="--port --turns --seconds --precision --error --host --follow --relative"
        ;;
    pair)
        offered="--selector --stem --reports --turns --seconds --report-every --ask-every --local-error
            --local-precision --earliest --latest --port --precision --error --follow --relative"
        ;;
    relay)
        offered="--cii --port --turns --seconds --ask-every --local-error --local-precision --host"
        ;;
    generate | survey)
        offered="--seed --lines --companions"
        ;;
    esac
    if [ "$COMP_CWORD" -eq 1 ]; then
        offered="replay migrate agree audit companion watch tv pair relay generate survey"
    fi
    COMPREPLY=()
    # Behind a redirection stands a file, and an option's value isn't known here.
    case ${COMP_WORDS[COMP_CWORD - 1]} in
    *[\<\>]) COMPREPLY=($(compgen -f -- "$word")) ;;
    *) COMPREPLY=($(compgen -W "$offered" -- "$word")) ;;
    esac
}

complete -o default -F _css css
