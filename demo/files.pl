#!/usr/bin/perl
# Writes the database files that `run_cases` shows, with the modules of Debian's libpalm-perl, so that
# they come from software that is not ours: perl demo/files.pl FOLDER. The document beside them is made by txt2pdbdoc:
# txt2pdbdoc -c 'Sonnet 18' sonnet.txt sonnet.pdb
use strict;
use warnings;
use Palm::Address;
use Palm::Datebook;
use Palm::Memo;
use Palm::ToDo;

my $folder = $ARGV[0] // die "usage: files.pl FOLDER\n";

# One database of a module, its categories and blocks as the module makes them, and its records in order.
sub write_file {
    my ($module, $file, @records) = @_;
    my $database = $module->new;
    $database->{ctime} = 1_000_000_000;
    my $id = 0x5a1000;
    for my $fields (@records) {
        my $record = $database->append_Record;
        my $attributes = delete $fields->{attributes} // {};
        $record->{id} = $id++;
        $record->{attributes} = $attributes;
        @$record{ keys %$fields } = values %$fields;
    }
    $database->{mtime} = 1_000_000_000;
    $database->{baktime} = 0;
    $database->Write("$folder/$file");
}

write_file('Palm::Address', 'AddressDB.pdb',
    { category => 1, fields => { name => 'Oliveira', firstName => 'Marta', phone1 => '555-0117', city => 'Lisboa' } },
    { category => 2, fields => { name => 'Berg', firstName => 'Ane', company => 'Fjord Books', phone1 => '555-0142' }, attributes => { private => 1 } },
    { category => 0, fields => { name => 'Station', phone1 => '555-0199' }, attributes => { Dirty => 1 } },
);

write_file('Palm::Datebook', 'DatebookDB.pdb',
    { day => 12, month => 6, year => 2001, start_hour => 9, start_minute => 30, end_hour => 10, end_minute => 0, description => 'Dentist' },
    { day => 24, month => 12, year => 2001, start_hour => 255, start_minute => 255, end_hour => 255, end_minute => 255, description => 'Closed', note => 'until the second' },
);

write_file('Palm::ToDo', 'ToDoDB.pdb',
    { category => 1, due_day => 1, due_month => 7, due_year => 2001, completed => 0, priority => 1, description => 'Renew the pass' },
    { category => 0, completed => 1, priority => 5, description => 'Oil the chain', note => 'only a drop' },
);

write_file('Palm::Memo', 'MemoDB.pdb',
    { category => 0, data => "Keys\nAnna has two" },
    { category => 3, data => "Tide table\nhigh 06:12 and 18:40" },
);
