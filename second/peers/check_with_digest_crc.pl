# Check bits by Digest::CRC: words in hexadecimal in, check bits in hexadecimal out.

use strict;
use warnings;

eval { require Digest::CRC; 1 } or exit 3;

while (my $line = <STDIN>) {
    # refin: the lowest bit of a byte goes in first, as D0 does.
    my $remainder = Digest::CRC->new(
        width => 16, poly => 0x8005, init => 0, xorout => 0, refin => 1, refout => 0,
    );
    chomp $line;
    my $highest_byte_first = pack 'H12', sprintf '%012s', $line;
    $remainder->add(scalar reverse $highest_byte_first);
    printf "%04x\n", hex $remainder->hexdigest;
}
