#!/usr/bin/perl
# Writes the file of examples/date-book with the modules of Debian's libpalm-perl, so that it comes from software that is not ours:
# perl demo/date-book.pl FOLDER
use strict;
use warnings;
use Palm::Datebook;

my $folder   = $ARGV[0] // die "usage: date-book.pl FOLDER\n";
my $id       = 0x3c1000;
my $database = Palm::Datebook->new;
$database->{ctime} = $database->{mtime} = 1_000_000_000;
$database->{baktime} = 0;

# A date: year, month, day, the hours and minutes from and to, and what else it has.
sub add {
    my ($year, $month, $day, $times, %fields) = @_;
    my $record = $database->append_Record;
    $record->{id} = $id++;
    $record->{attributes} = { private => delete $fields{private} // 0 };
    @$record{qw(year month day)} = ($year, $month, $day);
    @$record{qw(start_hour start_minute end_hour end_minute)} = @{ $times // [ 255, 255, 255, 255 ] };
    $record->{alarm} = delete $fields{alarm} // { advance => -1, unit => 0 };
    @$record{ keys %fields } = values %fields;
}

my @weekdays = (0, 1, 0, 1, 0, 1, 0);    # Monday, Wednesday, Friday
add(2001, 9, 10, [ 9, 30, 10, 0 ], description => 'Stand-up', note => 'bring notes', alarm => { advance => 15, unit => 0 },
    repeat => { type => 2, frequency => 2, repeat_days => \@weekdays, start_of_week => 1, unknown => 0,
                end_day => 31, end_month => 12, end_year => 2001 },
    exceptions => [ [ 24, 9, 2001 ] ]);
add(2001, 9, 9, undef, description => 'Sunday walk', repeat => { type => 1, frequency => 7, unknown => 0 });
add(2001, 9, 28, [ 18, 0, 18, 0 ], description => 'Last Friday', repeat => { type => 3, frequency => 1, weeknum => 4, daynum => 5, unknown => 0 });
add(2001, 9, 15, undef, description => 'Rent', repeat => { type => 4, frequency => 1, unknown => 0 });
add(1970, 1, 13, undef, description => "Marta's birthday", repeat => { type => 5, frequency => 1, unknown => 0 }, alarm => { advance => 3, unit => 2 });
add(2001, 9, 9, [ 22, 0, 1, 30 ], description => 'Night train', note => 'platform 4', private => 1);
add(2001, 9, 9, [ 7, 0, 7, 45 ], description => 'Swim',
    repeat => { type => 2, frequency => 1, repeat_days => \@weekdays, start_of_week => 1, unknown => 0 });
$database->Write("$folder/DatebookDB.pdb");
