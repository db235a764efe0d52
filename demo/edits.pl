#!/usr/bin/perl
# Writes what a day of use makes of the demo's memos on both sides, from the memos as they were:
# perl demo/edits.pl demo/handheld/MemoDB.pdb demo/edits
use strict;
use warnings;

my ($file, $folder) = @ARGV;
die "usage: edits.pl FILE FOLDER\n" unless defined $folder;
open my $in, '<:raw', $file or die "$file: $!\n";
my $bytes = do { local $/; <$in> };

# The header without its number of entries, and the records: id, attributes, text.
my $header = substr $bytes, 0, 76;
my $count = unpack 'n', substr $bytes, 76, 2;
my @places = map { unpack 'N', substr $bytes, 78 + 8 * $_, 4 } 0 .. $count - 1;
my %memo;
my @ids;
for my $at (0 .. $count - 1) {
    my ($attributes, $high, $low) = unpack 'C C n', substr $bytes, 82 + 8 * $at, 4;
    my $id = $high << 16 | $low;
    my $end = $at + 1 < $count ? $places[$at + 1] : length $bytes;
    push @ids, $id;
    $memo{$id} = [$attributes, substr $bytes, $places[$at], $end - $places[$at]];
}

sub write_file {
    my ($name, $header, @records) = @_;
    my $place = 78 + 8 * @records + 2;
    my ($entries, $texts) = ('', '');
    for (@records) {
        my ($id, $attributes, $text) = @$_;
        $entries .= pack 'N C C n', $place + length $texts, $attributes, $id >> 16, $id & 0xffff;
        $texts .= $text;
    }
    open my $out, '>:raw', "$folder/$name" or die "$folder/$name: $!\n";
    print $out $header, pack('n', scalar @records), $entries, "\0\0", $texts;
}

# On the handheld 0x40 marks what was changed and 0x80 what was deleted; a deleted memo with its text is to be archived.
my %held = map { $_ => [@{ $memo{$_} }] } @ids;
$held{0x3b1004} = [0x40, $memo{0x3b1004}[1] . "\nolive oil"];
$held{0x3b100c} = [0xc0, ''];
$held{0x3b1005}[0] |= 0xc0;
write_file('handheld/MemoDB.pdb', $header, (map { [$_, @{ $held{$_} }] } @ids), [0x3b100d, 0x40, "Parking\nlevel 2, row F"]);

# On the desktop a new memo has no id yet. Its rows have no backup date and no seed.
substr $header, $_, 4, "\0\0\0\0" for 44, 68;
my %row = map { $_ => [@{ $memo{$_} }] } @ids;
$row{0x3b1004}[1] =~ s/lemons, 4/lemons, 6/;
$row{0x3b1003}[1] =~ s/5\.5 bar/6 bar/;
write_file('desktop/MemoDB.pdb', $header, (map { [$_, @{ $row{$_} }] } grep { $_ != 0x3b1009 } @ids), [0, 0, "Dentist\nFriday 10:30"]);
