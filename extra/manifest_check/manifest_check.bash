# Completions of manifest_check for bash. scripts/install puts them where bash-completion finds them; without that, source
# this file.

# Adds the words of a list that begin as the word that is typed.
_manifest_check_words() {
    local word
    while IFS= read -r word; do
        COMPREPLY+=("$word")
    done < <(compgen -W "$1" -- "$current")
}

# Adds the files, or the folders, that begin as the word that is typed.
_manifest_check_files() {
    local file
    while IFS= read -r file; do
        COMPREPLY+=("$file")
    done < <(compgen "$1" -- "$current")
    compopt -o filenames 2>/dev/null
}

# Adds the values of an option; the status is 1 where it has none.
_manifest_check_values() {
    case $1 in
        --format) _manifest_check_words "$formats" ;;
        --color) _manifest_check_words "auto always never" ;;
        --deny | --warn | --allow) _manifest_check_words "all $(manifest_check --list 2>/dev/null | cut -d : -f 1)" ;;
        --explain) _manifest_check_words "$(manifest_check --list 2>/dev/null | cut -d : -f 1)" ;;
        --config | --stdin-path) _manifest_check_files -f ;;
        --max-size | --width) ;;
        *) return 1 ;;
    esac
}

_manifest_check() {
    local current=${COMP_WORDS[COMP_CWORD]} previous=${COMP_WORDS[COMP_CWORD - 1]} command='' word
    local formats="people short json github sarif"
    local options="--stdin-path --no-workspace --no-config --config --publish --max-size --format --color --width --deny --warn --allow
        --fix --dry-run --explain --list --help --version"
    COMPREPLY=()
    for word in "${COMP_WORDS[@]:1:COMP_CWORD-1}"; do
        case $word in
            show | canon | lsp | help) command=$word && break ;;
        esac
    done
    # (bash takes --format=short for three words)
    if [ "$current" = = ]; then
        current=
    elif [ "$previous" = = ]; then
        previous=${COMP_WORDS[COMP_CWORD - 2]}
    fi
    case $command in
        show) formats="people json html" options="--format --help" ;;
        canon) options="--check --help" ;;
        lsp) options="--help" ;;
        help) _manifest_check_words "show canon lsp" && return ;;
    esac
    _manifest_check_values "$previous" && return
    if [[ $current == -* ]]; then
        _manifest_check_words "$options"
        return
    fi
    [ "$COMP_CWORD" -ne 1 ] || _manifest_check_words "show canon lsp help"
    _manifest_check_files -f
}

complete -F _manifest_check manifest_check
