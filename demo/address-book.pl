#!/usr/bin/perl
# Writes the two files of examples/address-book with the modules of Debian's libpalm-perl, so that they come from software that is not
# ours: perl demo/address-book.pl FOLDER
use strict;
use warnings;
use Palm::Address;
use Palm::ToDo;

my $folder = $ARGV[0] // die "usage: address-book.pl FOLDER\n";
my $id     = 0x3b1000;

# A database of a module, with the categories that it knows, and its records in order.
sub write_file {
    my ($database, $file, $fill, @records) = @_;
    $database->{ctime} = $database->{mtime} = 1_000_000_000;
    $database->{baktime} = 0;
    for my $fields (@records) {
        my $record = $database->append_Record;
        $record->{id}         = $id++;
        $record->{category}   = delete $fields->{category} // 0;
        $record->{attributes} = { private => delete $fields->{private} // 0 };
        $fill->($record, $fields);
    }
    $database->Write("$folder/$file");
}

my $book = Palm::Address->new;
$book->{appinfo}{fieldLabels}{custom1} = 'Birthday';
write_file($book, 'AddressDB.pdb',
    sub {
        my ($record, $fields) = @_;
        my $labels = delete $fields->{labels} // {};
        @{ $record->{phoneLabel} }{ keys %$labels } = values %$labels;
        @{ $record->{fields} }{ keys %$fields } = values %$fields;
    },
    {   category => 2, name => 'Oliveira', firstName => 'Marta', phone1 => '555-0117', phone2 => 'marta@example.org',
        labels   => { phone1 => 7, phone2 => 4, display => 1 },
        address  => "Rua do Sol 3", city => 'Lisboa', zipCode => '1200-100', country => 'Portugal', custom1 => '1970-01-13' },
    {   category => 1, name => 'Berg', firstName => 'Ane', company => 'Fjord Books; second hand', phone1 => '555-0142',
        labels   => { phone1 => 0 }, title => 'Owner', note => "Open on Mondays,\nasks for the list" },
    { name => 'Station', phone1 => '555-0199', labels => { phone1 => 5 } },
    { category => 2, name => 'Locksmith', phone1 => '555-0123', labels => { phone1 => 0 }, note => 'the key is with her', private => 1 },
);

write_file(Palm::ToDo->new, 'ToDoDB.pdb',
    sub { my ($record, $fields) = @_; @$record{ keys %$fields } = values %$fields; },
    { category => 1, due_day => 1, due_month => 7, due_year => 2001, completed => 0, priority => 1, description => 'Renew the pass' },
    { completed => 1, priority => 5, description => 'Oil the chain', note => 'only a drop' },
);
