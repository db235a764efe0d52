#!/usr/bin/perl
# Writes the demo's memos with Palm::Memo of Debian's libpalm-perl, so that the file comes from
# software that is not ours: perl demo/memos.pl demo/handheld/MemoDB.pdb
use strict;
use warnings;
use Palm::Memo;

# The memos alone: no block of category names.
no warnings 'redefine';
*Palm::Memo::PackAppInfoBlock = sub { undef };

# id, category, private, text in the handheld's encoding
my @memos = (
    [0x3b1004, 0, 0, "Shopping\nflour 1 kg\nyeast\nolives\nlemons, 4\ncandles for Saturday"],
    [0x3b1001, 1, 0, "Bread\n500 g flour, 350 g water, 10 g salt, a little yeast.\nMix, wait 18 hours, fold twice, bake 45 minutes in a closed pot at 240."],
    [0x3b1002, 1, 0, "Vinaigrette\n3 parts oil, 1 part vinegar, mustard, salt.\nShake in the jar it is kept in."],
    [0x3b1003, 0, 0, "Bike\nFront tyre 28-622, 5.5 bar\nChain changed 2001-06-12 at 4210 km"],
    [0x3b1005, 2, 0, "Meeting, Tuesday\n- budget for the second machine\n- who feeds the fish in August\n- keys: Anna has two, give one back"],
    [0x3b1006, 2, 1, "Locker 117\nfour left, two right, one left"],
    [0x3b1007, 0, 0, "Caf\xe9 du March\xe9, rue des Oliviers 12\nclosed on Mondays"],
    [0x3b1008, 3, 0, "Sonnet 18\nShall I compare thee to a summer's day?\nThou art more lovely and more temperate:\nRough winds do shake the darling buds of May,\nAnd summer's lease hath all too short a date;"],
    [0x3b1009, 3, 0, "To read\nMelville, Typee\nWoolf, Flush\nTove Jansson, The Summer Book"],
    [0x3b100c, 0, 0, "Train home\n17:52 platform 3, change at the junction\n18:40 platform 1\nlast one 22:10"],
    [0x3b100b, 2, 0, "Serial port\n9600 baud, 8 data bits, no parity, 1 stop bit\nthe blue cable is the one without the handshake lines"],
    [0x3b100a, 0, 0, "Palm tips\nhold the two outer buttons and press reset for a warm start\ndraw a dot before each punctuation stroke"],
);

my $database = Palm::Memo->new;
$database->{ctime} = 1_000_000_000;
$database->{attributes}{backup} = 1;
$database->{uniqueIDseed} = 0x3b100d;
for my $memo (@memos) {
    my ($id, $category, $private, $text) = @$memo;
    my $record = $database->append_Record;
    $record->{id} = $id;
    $record->{category} = $category;
    $record->{attributes} = { private => $private };
    $record->{data} = $text;
}
$database->{mtime} = 1_000_000_000;
$database->{baktime} = 1_000_000_000;
$database->Write($ARGV[0] // die "usage: memos.pl FILE\n");
