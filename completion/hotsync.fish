# Completion of hotsync's words for fish: put it into ~/.config/fish/completions/hotsync.fish.
function __hotsync_command
    set --local words (commandline -opc)
    test (count $words) -ge 2; and contains -- $words[2] $argv
end
# Options that want a value stand as words of their own: the value is behind an equals sign, never behind a space.
function __hotsync_option
    __hotsync_command $argv; and string match -q -- '-*' (commandline -ct)
end
# The stems of the databases in the folders that the words name.
function __hotsync_stems
    for named in (commandline -opc)[3..]
        string match -q -- '-*' $named; and continue
        for file in $named/*.pdb
            test -f $file; and string replace -r '.*/(.*)\.pdb$' '$1' -- $file
        end
    end | sort -u
end
# What stands of an option's value in front of its last item.
function __hotsync_before
    string replace -r '[^=,]*$' '' -- (commandline -ct)
end
function __hotsync_only
    printf '%s\n' (__hotsync_before)(__hotsync_stems)
end
function __hotsync_actions
    for stem in (__hotsync_stems) '*'
        printf '%s\n' (__hotsync_before)$stem:{sync,both,handheld,desktop,nothing}
    end
end
# An option's value is being written.
function __hotsync_value
    __hotsync_command $argv[2..]; and string match -q -- "$argv[1]=*" (commandline -ct)
end
complete -c hotsync -n 'test (count (commandline -opc)) -eq 1' -f -a run -d 'synchronise two folders'
complete -c hotsync -n 'test (count (commandline -opc)) -eq 1' -f -a check -d 'read a database file and count its entries'
complete -c hotsync -n 'test (count (commandline -opc)) -eq 1' -f -a show -d 'print what a database file holds'
complete -c hotsync -n 'test (count (commandline -opc)) -eq 1' -f -a export -d 'print what the records of a database say'
complete -c hotsync -n 'test (count (commandline -opc)) -eq 1' -f -a import -d 'print the database of a text of memos'
complete -c hotsync -n 'test (count (commandline -opc)) -eq 1' -f -a verify -d 'judge a trace'
complete -c hotsync -n 'test (count (commandline -opc)) -eq 1' -f -a picture -d 'print a trace as a page'
complete -c hotsync -n 'test (count (commandline -opc)) -eq 1' -f -a packet -d 'print the packets in bytes'
complete -c hotsync -n 'test (count (commandline -opc)) -eq 1' -f -a install -d 'put a database file onto a handheld'
complete -c hotsync -n 'test (count (commandline -opc)) -eq 1' -f -a backup -d 'put the databases of a handheld into a folder of files'
complete -c hotsync -n 'test (count (commandline -opc)) -eq 1' -f -a restore -d 'put the databases of a folder of files onto a handheld'
complete -c hotsync -n 'test (count (commandline -opc)) -eq 1' -f -a categories -d 'give both sides one table of categories'
complete -c hotsync -n 'test (count (commandline -opc)) -eq 1' -f -a device -d 'answer as a handheld does, at a port or to captured bytes'
complete -c hotsync -n 'test (count (commandline -opc)) -eq 1' -f -a sync -d 'synchronise a folder with a handheld behind a serial port'
complete -c hotsync -n 'test (count (commandline -opc)) -eq 1' -f -a make -d 'print what a run over made folders does'
complete -c hotsync -n 'test (count (commandline -opc)) -eq 1' -f -a help -d 'print how the program or a command is called'
complete -c hotsync -f -l help -d 'print how it is called'
complete -c hotsync -n 'test (count (commandline -opc)) -eq 1' -f -l version -d 'print the version'
complete -c hotsync -n '__hotsync_command help' -f -a 'run check show export import verify picture packet install backup restore device categories sync make'
complete -c hotsync -n '__hotsync_command show' -f -l records -d 'show the bytes of each entry'
complete -c hotsync -n '__hotsync_option run export' -a '--date=\t"the date of the session"'
complete -c hotsync -n '__hotsync_option run export' -a '--date=now\t"the date of the session"'
complete -c hotsync -n '__hotsync_option run backup restore categories' -a '--script=\t"the line script"'
complete -c hotsync -n '__hotsync_option run install backup restore categories device' -a '--trace=\t"the file for the trace"'
complete -c hotsync -n '__hotsync_option run sync' -a '--only=\t"the databases that are touched"'
complete -c hotsync -n '__hotsync_command run' -f -l slow -d 'read all records'
complete -c hotsync -n '__hotsync_option run' -a '--actions=\t"what is done with each database"'
complete -c hotsync -n '__hotsync_option run' -a '"--actions=*:both"\t"keep what is live on either side"'
complete -c hotsync -n '__hotsync_option run sync' -a '--user=\t"the name of the user of the handheld"'
complete -c hotsync -n '__hotsync_command run' -f -l add-user -d 'give the handheld a user of its own on the desktop'
complete -c hotsync -n '__hotsync_command run' -f -l dry-run -d 'print what the run would do, and change neither folder'
complete -c hotsync -n '__hotsync_option export' -a '--as=txt\t"the form"'
complete -c hotsync -n '__hotsync_option export' -a '--as=vcf\t"the form"'
complete -c hotsync -n '__hotsync_option export' -a '--as=csv\t"the form"'
complete -c hotsync -n '__hotsync_option export' -a '--as=ics\t"the form"'
complete -c hotsync -n '__hotsync_option import' -a '--as=txt\t"the form"'
complete -c hotsync -n '__hotsync_option import' -a '--like=\t"the file with the categories"'
complete -c hotsync -n '__hotsync_command export' -f -l without-private -d 'leave private records out'
complete -c hotsync -n '__hotsync_command export' -f -l keep-broken -d 'keep records that are out of their form'
complete -c hotsync -n '__hotsync_command export' -f -l raw -d 'print the fields of a table as they are'
complete -c hotsync -n '__hotsync_option device' -a '--in=\t"the captured bytes"'
complete -c hotsync -n '__hotsync_option device' -a '--out=\t"the file for what is said"'
complete -c hotsync -n '__hotsync_option device' -a '--port=\t"the port that it stands at"'
complete -c hotsync -n '__hotsync_option run backup' -a '--port=\t"the port of the handheld"'
complete -c hotsync -n '__hotsync_option sync' -a '--date=\t"the date of the session"'
complete -c hotsync -n '__hotsync_option sync' -a '--date=now\t"the date of the session"'
complete -c hotsync -n '__hotsync_option sync' -a '--trace=\t"the file for the trace"'
complete -c hotsync -n '__hotsync_command sync' -f -l slow -d 'read all records'
complete -c hotsync -n '__hotsync_option sync' -a '--actions=\t"what is done with each database"'
complete -c hotsync -n '__hotsync_option sync' -a '"--actions=*:both"\t"keep what is live on either side"'
complete -c hotsync -n '__hotsync_command sync' -f -l add-user -d 'give the handheld a user of its own on the desktop'
complete -c hotsync -n '__hotsync_value --only run sync' -f -a '(__hotsync_only)' -d 'the databases that are touched'
complete -c hotsync -n '__hotsync_value --actions run sync' -f -a '(__hotsync_actions)' -d 'what is done with each database'
