# Completes the words of ztso in bash: source scripts/completion.bash. Made by scripts/make-commands.
_ztso() {
    local word=${COMP_WORDS[COMP_CWORD]} last=${COMP_WORDS[COMP_CWORD - 1]} command=${COMP_WORDS[1]}
    local at position=0 options='' words='' inputs=()
    for ((at = 2; at < COMP_CWORD; at++)); do
        case ${COMP_WORDS[at]} in
        --svg | --memory | --steps | --unfinished | --finish | --harts | --safety) ;;
        --*) ((++at)) ;;
        *) ((++position)) ;;
        esac
    done
    case $command in
    run) inputs=(files files) options='--buffer' ;;
    replay) inputs=(files files) options='--buffer' ;;
    move) inputs=(files files) options='--buffer' ;;
    shrink) inputs=(files files) options='--buffer' ;;
    chart) inputs=(files files) options='--buffer --svg --memory' ;;
    show) inputs=(files) options='--buffer --steps' ;;
    debug) inputs=(files files) options='--buffer' ;;
    check) inputs=(files) options='--buffer' ;;
    find) inputs=(files) options='--buffer --states' ;;
    try) inputs=(files) options='--buffer --seed --runs --length --skip --draw --unfinished --jobs' ;;
    threads) inputs=(files) options='--buffer --turns' ;;
    channel) inputs=('lamport fastforward cached own' '' files) options='--buffer --base --stride --finish --sender --receiver' ;;
    ring) inputs=(files files '') options='--buffer --seed --runs --length --skip --draw --jobs --base --stride' ;;
    callers) inputs=(files) options='--buffer --seed --runs --length --skip --draw --jobs --slots --base --sender --receiver --kind' ;;
    queue) inputs=(files) options='--buffer --seed --runs --length --skip --draw --jobs --certificate --written --read --once --harts --safety' ;;
    steps) inputs=() options='--buffer' ;;
    asm) inputs=() options='' ;;
    dis) inputs=() options='' ;;
    esac
    if ((COMP_CWORD == 1)); then
        words='run replay move shrink chart show debug check find try threads channel ring callers queue steps asm dis'
    elif ((at > COMP_CWORD)); then
        case $last in
        --buffer) words='1 2 4 16' ;;
        --draw) words='uniform bursts' ;;
        --draw) words='uniform bursts' ;;
        --kind) words='lamport cached fastforward' ;;
        --sender) [[ ' channel ' != *" $command "* ]] || compopt -o default ;;
        --receiver) [[ ' channel ' != *" $command "* ]] || compopt -o default ;;
        --certificate) [[ ' queue ' != *" $command "* ]] || compopt -o default ;;
        esac
    elif [[ $word == -* ]]; then
        words=$options
    elif [[ ${inputs[position]-} == files ]]; then
        compopt -o default
    else
        words=${inputs[position]-}
    fi
    # shellcheck disable=SC2207 # the words have no blanks
    COMPREPLY=($(compgen -W "$words" -- "$word"))
}
complete -F _ztso ztso ./ztso scripts/try

# Completes the words of a tool by its own help.
_ztso_tool() {
    local help words=''
    help=$("$1" --help 2> /dev/null)
    if [[ $3 == --* ]]; then
        words=$(sed -nE "s/.*[[ ]$3 ([a-z0-9]+([|][a-z0-9]+)+).*/\1/p" <<< "$help")
        words=${words%%$'\n'*}
    fi
    if [[ -n $words ]]; then
        words=${words//|/ }
    elif [[ $2 == -* ]]; then
        words=$(grep -oE -- '--[a-z][a-z-]*' <<< "$help")
    else
        compopt -o default
    fi
    # shellcheck disable=SC2207 # the words have no blanks
    COMPREPLY=($(compgen -W "$words" -- "$2" | sort -u))
}
complete -F _ztso_tool tools/allowed ztso-allowed tools/certify ztso-certify tools/channel-text ztso-channel-text tools/chart-lines ztso-chart-lines tools/compare-mappings ztso-compare-mappings tools/core-log-to-record ztso-core-log-to-record tools/for-ci ztso-for-ci tools/from-c ztso-from-c tools/from-herd ztso-from-herd tools/from-object ztso-from-object tools/make-rust-core ztso-make-rust-core tools/merge-tries ztso-merge-tries tools/page ztso-page tools/queue ztso-queue tools/to-litmus-log ztso-to-litmus-log tools/tries-over-machines ztso-tries-over-machines
