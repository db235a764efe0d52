#!/usr/bin/perl
# Writes four databases of random records with the modules of Debian's libpalm-perl, and what stands in each record as JSON
# (texts in hexadecimal, as their bytes): perl records.pl SEED COUNT FOLDER
use strict;
use warnings;
use JSON::PP;
use Palm::Address;
use Palm::Datebook;
use Palm::Memo;
use Palm::ToDo;

my ($seed, $count, $folder) = @ARGV;
srand($seed);
my $id = 0x100000;
my %said;

# A text of up to so many bytes: plain ones, those that vCard and iCalendar escape, line feeds, the upper half, a control.
sub text {
    my ($most, $least) = @_;
    my $length = ($least // 0) + int(rand($most));
    my @marks = (',', ';', '\\', "\n", ':', '"', '-', '---', ' ', "\t", '\\n');
    return join '', map {
        my $turn = rand();
        $turn < 0.7 ? chr(32 + int(rand(95))) : $turn < 0.85 ? $marks[ rand @marks ] : chr(128 + int(rand(128)))
    } 1 .. $length;
}

sub hexed { return defined $_[0] ? unpack('H*', $_[0]) : undef }

sub begin {
    my ($module, $name) = @_;
    my $database = $module->new;
    $database->{ctime} = $database->{mtime} = 1_000_000_000;
    $database->{baktime} = 0;
    for my $place (1 .. 5) {
        $database->{appinfo}{categories}[$place]{name} = substr("Label $place, " . text(4), 0, 15);
    }
    $said{$name} = { labels => [ map { hexed($_->{name}) } @{ $database->{appinfo}{categories} } ], records => [] };
    return $database;
}

sub record {
    my ($database, $name, $told) = @_;
    my $record = $database->append_Record;
    $record->{id} = $id++;
    my $private = rand() < 0.2 ? 1 : 0;
    $record->{category}   = int(rand(6));
    $record->{attributes} = { private => $private };
    push @{ $said{$name}{records} }, { id => $record->{id}, category => $record->{category}, private => $private, %$told };
    return $record;
}

my $memos = begin('Palm::Memo', 'MemoDB');
for (1 .. $count) {
    my $text = text(200);
    record($memos, 'MemoDB', { text => hexed($text) })->{data} = $text;
}
$memos->Write("$folder/MemoDB.pdb");

my @fields = qw(name firstName company phone1 phone2 phone3 phone4 phone5 address city state zipCode country title custom1 custom2 custom3 custom4 note);
my $book = begin('Palm::Address', 'AddressDB');
$book->{appinfo}{fieldLabels}{"custom$_"} = substr("Own $_; " . text(4), 0, 15) for 1 .. 4;
$said{AddressDB}{custom} = [ map { hexed($book->{appinfo}{fieldLabels}{"custom$_"}) } 1 .. 4 ];
for (1 .. $count) {
    my %given = map { rand() < 0.5 ? ($_ => text(40, 1)) : () } @fields;
    my %kinds = (map({ ("phone$_" => int(rand(8))) } 1 .. 5), display => int(rand(5)), reserved => 0);
    my $record = record($book, 'AddressDB', { fields => { map { $_ => hexed($given{$_}) } keys %given }, kinds => \%kinds });
    $record->{fields}{$_} = $given{$_} for keys %given;
    $record->{phoneLabel} = \%kinds;
}
$book->Write("$folder/AddressDB.pdb");

my $tasks = begin('Palm::ToDo', 'ToDoDB');
for (1 .. $count) {
    my %given = (completed => rand() < 0.5 ? 1 : 0, priority => 1 + int(rand(5)), description => text(80), note => rand() < 0.5 ? text(120, 1) : '');
    my @due = rand() < 0.6 ? (due_year => 1990 + int(rand(40)), due_month => 1 + int(rand(12)), due_day => 1 + int(rand(28))) : ();
    my %told = (%given, @due);
    $told{$_} = hexed($given{$_}) for qw(description note);
    my $record = record($tasks, 'ToDoDB', \%told);
    $record->{$_} = $given{$_} for keys %given;
    my %set = @due;
    $record->{$_} = $set{$_} for keys %set;
    delete $record->{note} if $given{note} eq '';
}
$tasks->Write("$folder/ToDoDB.pdb");

my $dates = begin('Palm::Datebook', 'DatebookDB');
for (1 .. $count) {
    my ($year, $month, $day) = (1990 + int(rand(40)), 1 + int(rand(12)), 1 + int(rand(28)));
    my @times = rand() < 0.3 ? (255) x 4 : (int(rand(24)), int(rand(60)), int(rand(24)), int(rand(60)));
    my %repeat;
    my $turn = int(rand(6));
    if ($turn) {
        %repeat = (type => $turn, frequency => 1 + int(rand($turn == 1 ? 40 : 6)), unknown => 0);
        if ($turn == 2) {
            my @days = map { rand() < 0.4 ? 1 : 0 } 0 .. 6;
            $days[ rand 7 ] = 1;
            $repeat{repeat_days}   = \@days;
            $repeat{start_of_week} = int(rand(2));
        }
        @repeat{qw(weeknum daynum)} = (int(rand(5)), int(rand(7))) if $turn == 3;
        @repeat{qw(end_year end_month end_day)} = ($year + int(rand(3)), 1 + int(rand(12)), 1 + int(rand(28))) if rand() < 0.5;
    }
    my @exceptions = $turn && rand() < 0.4 ? map { [ 1 + int(rand(28)), 1 + int(rand(12)), $year + int(rand(2)) ] } 1 .. 1 + int(rand(3)) : ();
    my %alarm = rand() < 0.5 ? (advance => int(rand(60)), unit => int(rand(3))) : (advance => -1, unit => 0);
    my %given = (description => text(80), note => rand() < 0.4 ? text(120, 1) : '');
    my $record = record($dates, 'DatebookDB', {
        year => $year, month => $month, day => $day, times => \@times, repeat => { %repeat }, exceptions => \@exceptions,
        alarm => { %alarm }, map({ $_ => hexed($given{$_}) } qw(description note)),
    });
    @$record{qw(year month day)} = ($year, $month, $day);
    @$record{qw(start_hour start_minute end_hour end_minute)} = @times;
    $record->{repeat} = { %repeat };
    $record->{exceptions} = \@exceptions;
    $record->{alarm} = { %alarm };
    $record->{description} = $given{description};
    $record->{note} = $given{note} if $given{note} ne '';
}
$dates->Write("$folder/DatebookDB.pdb");

open my $out, '>', "$folder/records.json" or die $!;
print $out JSON::PP->new->canonical->encode(\%said);
close $out or die $!;
