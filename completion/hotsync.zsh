#compdef hotsync
# Completion of hotsync's words for zsh: put it as _hotsync into a folder of $fpath.

# The stems of the databases in the folders that the words name.
_hotsync_stems() {
    local named
    stems=()
    for named in ${(Q)words[2,-1]}; do
        stems+=(${~named/#\~\//$HOME/}/*.pdb(N.:t:r))
    done
    stems=(${(u)stems})
}
_hotsync_only() {
    local -a stems
    _hotsync_stems
    _values -s , 'database' $stems
}
_hotsync_actions() {
    local -a stems
    _hotsync_stems
    _values -s , -S : 'database' ${^stems}':action:(sync both handheld desktop nothing)' \
        '*:action:(sync both handheld desktop nothing)'
}

_hotsync() {
    local -a commands
    commands=(
        'run:synchronise two folders'
        'check:read a database file and count its entries'
        'show:print what a database file holds'
        'export:print what the records of a database say'
        'import:print the database of a text of memos'
        'verify:judge a trace'
        'picture:print a trace as a page'
        'packet:print the packets in bytes'
        'install:put a database file onto a handheld'
        'backup:put the databases of a handheld into a folder of files'
        'restore:put the databases of a folder of files onto a handheld'
        'categories:give both sides one table of categories'
        'device:answer as a handheld does, at a port or to captured bytes'
        'sync:synchronise a folder with a handheld behind a serial port'
        'make:print what a run over made folders does'
        'help:print how the program or a command is called'
        '--help:print how the program is called'
        '--version:print the version'
    )
    if ((CURRENT == 2)); then
        _describe command commands
        return
    fi
    shift words
    ((CURRENT--))
    case ${words[1]} in
    run)
        _arguments '1:handheld or desktop:_files -/' '2:desktop:_files -/' \
            '--date=-[the date of the session]:date:(now)' '--port=-[the port of the handheld]:port:_files' \
            '--script=-[the line script]:file:_files' \
            '--trace=-[the file for the trace]:file:_files' '--only=-[the databases that are touched]:stems:_hotsync_only' \
            '--slow[read all records]' '--actions=-[what is done with each database]:actions:_hotsync_actions' \
            '--user=-[the name of the handheld'\''s user]:name:' \
            '--add-user[give the handheld a user of its own on the desktop]' \
            '--dry-run[print what the run would do, and change neither folder]'
        ;;
    export)
        _arguments '1:file:_files' '--as=-[the form]:form:(txt vcf csv ics)' \
            '--date=-[the time at which the calendar is made]:date:(now)' \
            '--without-private[leave private records out]' '--keep-broken[keep records that are out of their form]' \
            '--raw[print the fields of a table as they are]'
        ;;
    import) _arguments '1:file:_files' '--as=-[the form]:form:(txt)' '--like=-[the file with the categories]:file:_files' ;;
    install) _arguments '1:handheld:_files -/' '2:file:_files' '--trace=-[the file for the trace]:file:_files' ;;
    backup)
        _arguments '1:handheld or folder:_files -/' '2:folder:_files -/' '--port=-[the port of the handheld]:port:_files' \
            '--script=-[the line script]:file:_files' '--trace=-[the file for the trace]:file:_files'
        ;;
    restore)
        _arguments '1:handheld:_files -/' '2:folder:_files -/' '--script=-[the line script]:file:_files' \
            '--trace=-[the file for the trace]:file:_files'
        ;;
    categories)
        _arguments '1:handheld:_files -/' '2:desktop:_files -/' '--script=-[the line script]:file:_files' \
            '--trace=-[the file for the trace]:file:_files'
        ;;
    device) _arguments '1:handheld:_files -/' '--in=-[the captured bytes]:file:_files' '--out=-[the file for what is said]:file:_files' '--port=-[the port that it stands at]:port:_files' '--trace=-[the file for the trace]:file:_files' ;;
    sync)
        _arguments '1:port:_files' '2:desktop:_files -/' \
            '--date=-[the date of the session]:date:(now)' '--only=-[the databases that are touched]:stems:_hotsync_only' \
            '--trace=-[the file for the trace]:file:_files' '--slow[read all records]' \
            '--actions=-[what is done with each database]:actions:_hotsync_actions' \
            '--user=-[the name of the handheld'\''s user]:name:' \
            '--add-user[give the handheld a user of its own on the desktop]'
        ;;
    show) _arguments '1:file:_files' '--records[show the bytes of each entry]' ;;
    help) _describe command commands ;;
    check | verify | picture) _arguments '1:file:_files' ;;
    packet) _arguments '1:bytes in hexadecimal digits:' ;;
    make) _arguments '1:seed:' '2:how many records:' ;;
    esac
}
_hotsync "$@"
