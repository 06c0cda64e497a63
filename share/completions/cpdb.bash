# Completes the words of cpdb in bash: source this file.

# The options of a tool; one with a word after it ends in `=`.
_cpdb_options() {
    case $1 in
    backup) echo --against= ;;
    diff) echo --below= --by= --full --json ;;
    find) echo --all --below= --exact --ignore-case --labels --places --values ;;
    history) echo --by= --full --reverse --since= --until= --values ;;
    json) echo --all --arrays --at= --base= --csv --key= --prov --provenance ;;
    ls) echo --full --long --places --recursive ;;
    outdated) echo --all --by= --format= --new ;;
    prepare) echo --at= --comment= --encoding= --escape= --from= --header= --ins= --key= --quote= --ragged= --repeated= --separator= --verbose ;;
    rescue) echo --statements= ;;
    revert) echo --anyway ;;
    shell) echo --read ;;
    stats) echo --commits ;;
    try) echo --full --refusals --skip ;;
    update) echo --below= --only= ;;
    esac
}

# What a word of a command is: the words that it may be, or a file.
_cpdb_command() {
    case $COMP_CWORD:${COMP_WORDS[1]-} in
    1:*)
        words="scratch init run share commit load query gen log at archive verify uses help $tools"
        case $word in -*) words='--help --version' ;; esac
        ;;
    2:help) words=$tools ;;
    2:scratch | 3:init | 4:gen) words='n t h ht' ;;
    4:load) words='json csv' ;;
    3:query) words='records show stats' ;;
    4:at) words=show ;;
    [23]:commit | [24]:init | [25]:load | 3:scratch | 2:run | 2:share | 2:query | 2:log | 2:at | 2:archive | 2:verify | 2:uses) files=-o ;;
    esac
}

# What a word of a tool is: an option, what comes after one, or the word with this number among the others.
_cpdb_tool() {
    local tool=${COMP_WORDS[1]} options at=0 option= i
    options=" $(_cpdb_options "$tool") --help "
    for ((i = 2; i < COMP_CWORD; i++)); do
        case ${COMP_WORDS[i]} in
        -*) case $options in *" ${COMP_WORDS[i]}= "*) option=${COMP_WORDS[i++]} ;; esac ;;
        *) at=$((at + 1)) ;;
        esac
    done
    if ((i > COMP_CWORD)); then
        case $option in
        --format | --from) words='json csv' ;;
        --repeated) words='first last number' ;;
        --ragged) words=fill ;;
        --only) words='changed gone new' ;;
        --against | --statements) files=-o ;;
        esac
    elif [[ $word == -* ]]; then
        words=${options//= / }
    else
        case $at:$tool:${COMP_WORDS[2]-} in
        1:shell:scratch) words='n t h ht' ;;
        0:shell:*) words=scratch files=-o ;;
        0:* | 1:backup:* | 1:page:* | 1:rescue:* | 1:try:* | 2:outdated:* | 2:shell:scratch) files=-o ;;
        esac
    fi
}

_cpdb() {
    local word=${COMP_WORDS[COMP_CWORD]} words= files=+o
    local tools='backup diff find history json ls outdated page prepare rescue revert shell sources stats try update'
    if ((COMP_CWORD > 1)) && [[ " $tools " == *" ${COMP_WORDS[1]-} "* ]]; then
        _cpdb_tool
    else
        _cpdb_command
    fi
    COMPREPLY=($(compgen -W "$words" -- "$word"))
    # Where a file stands, nothing is offered here, and bash itself completes its name.
    compopt $files default
    if [ -n "$words" ] && [ $files = -o ]; then
        mapfile -t COMPREPLY < <(compgen -W "$words" -f -- "$word")
        compopt -o filenames
    fi
}
complete -F _cpdb cpdb
