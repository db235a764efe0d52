# Completion of hotsync's words for bash: source it, or put it into ~/.local/share/bash-completion/completions/hotsync.

# Answers with these words, or with the files or folders that compgen names by this flag.
_hotsync_words() { mapfile -t COMPREPLY < <(compgen -W "$1" -- "$word"); }
_hotsync_files() {
    compopt -o filenames
    mapfile -t COMPREPLY < <(compgen "$1" -- "$word")
}

# Answers with these options. Behind one that wants a value no space is set.
_hotsync_options() {
    _hotsync_words "$1"
    if [ "${#COMPREPLY[@]}" -eq 1 ] && [ "${COMPREPLY[0]%[=:]}" != "${COMPREPLY[0]}" ]; then
        compopt -o nospace
    fi
}

# The stems of the databases in the folders that the words name, a line for each.
_hotsync_stems() {
    local named file
    for named in "${COMP_WORDS[@]:2}"; do
        named=${named//[\'\"\\]/}
        for file in "${named/#\~\//$HOME/}"/*.pdb; do
            if [ -n "$named" ] && [ -f "$file" ]; then
                file=${file##*/}
                printf '%s\n' "${file%.pdb}"
            fi
        done
    done | sort -u
}

# Answers with a list whose last item is one of these lines, with this behind it. What stands in front of the item stays.
_hotsync_items() {
    local IFS=$'\n' before=
    if [ "${word%,*}" != "$word" ]; then before=${word%,*},; fi
    mapfile -t COMPREPLY < <(compgen -P "$before" -S "$2" -W "$1" -- "${word##*,}")
    compopt -o nospace
}

# The option whose value is being written. The shell parts it from its value at the equals sign, and an action from its
# database at the colon.
_hotsync_option() {
    local at=$COMP_CWORD
    while [ "$at" -gt 2 ]; do
        case ${COMP_WORDS[at]} in [=:]) ;; *)
            case ${COMP_WORDS[at - 1]} in [=:]) ;; *) break ;; esac
            ;;
        esac
        at=$((at - 1))
    done
    if [ "$at" -lt "$COMP_CWORD" ]; then printf '%s' "${COMP_WORDS[at]#[\'\"]}"; fi
}

_hotsync() {
    local word=${COMP_WORDS[COMP_CWORD]}
    local commands='run check show export import verify picture packet install backup restore device categories sync make'
    local option
    COMPREPLY=()
    if [ "$COMP_CWORD" -eq 1 ]; then
        _hotsync_words "$commands help --help --version"
        return
    fi

    option=$(_hotsync_option)
    local sign=${COMP_WORDS[COMP_CWORD - 1]}
    case $word in [=:])
        sign=$word
        word=
        ;;
    esac
    case ${COMP_WORDS[1]}$option$sign in
    import--as=) _hotsync_words txt ;;
    *--as=) _hotsync_words 'txt vcf csv ics' ;;
    *--date=) _hotsync_words now ;;
    *--script= | *--trace= | *--in= | *--out= | *--port= | *--like=) _hotsync_files -f ;;
    *--only=) _hotsync_items "$(_hotsync_stems)" '' ;;
    *--actions=) _hotsync_items "$(_hotsync_stems)"$'\n*' : ;;
    *--actions:)
        case $word in
        *,*) _hotsync_items "$(_hotsync_stems)"$'\n*' : ;;
        *) _hotsync_words 'sync both handheld desktop nothing' ;;
        esac
        ;;
    esac
    if [ -n "$option" ]; then return; fi

    case ${COMP_WORDS[1]} in
    run)
        case $word in
        -*) _hotsync_options '--date=now --date= --port= --script= --trace= --only= --slow --actions= --actions=*: --user= --add-user --dry-run' ;;
        *) _hotsync_files -d ;;
        esac
        ;;
    export)
        case $word in
        -*) _hotsync_options '--as=txt --as=vcf --as=csv --as=ics --date=now --without-private --keep-broken --raw' ;;
        *) _hotsync_files -f ;;
        esac
        ;;
    import)
        case $word in
        -*) _hotsync_options '--as=txt --like=' ;;
        *) _hotsync_files -f ;;
        esac
        ;;
    install)
        case $word in
        -*) _hotsync_options '--trace=' ;;
        *) _hotsync_files -f ;;
        esac
        ;;
    backup)
        case $word in
        -*) _hotsync_options '--port= --script= --trace=' ;;
        *) _hotsync_files -d ;;
        esac
        ;;
    restore | categories)
        case $word in
        -*) _hotsync_options '--script= --trace=' ;;
        *) _hotsync_files -f ;;
        esac
        ;;
    device)
        case $word in
        -*) _hotsync_options '--in= --out= --port= --trace=' ;;
        *) _hotsync_files -d ;;
        esac
        ;;
    sync)
        case $word in
        -*) _hotsync_options '--date=now --date= --only= --trace= --slow --actions= --actions=*: --user= --add-user' ;;
        *) _hotsync_files -f ;;
        esac
        ;;
    show)
        case $word in
        -*) _hotsync_options '--records' ;;
        *) _hotsync_files -f ;;
        esac
        ;;
    help) _hotsync_words "$commands" ;;
    check | verify | picture) _hotsync_files -f ;;
    esac
}
complete -F _hotsync hotsync
